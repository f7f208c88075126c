// Names per second on a generated netlist: netread over its door for C, against glibc's regexec, and RE2 and TRE where they
// were found. Each finds, for each name, the lowest rule that reads it and the stretches of its parts, and writes a line.
#include <chrono>
#include <cstdint>
#include <cstdio>
#include <cstring>
#include <string>
#include <vector>

#include <regex.h>

#include "netread.h"

#ifdef WITH_RE2
#include <re2/re2.h>
#include <re2/set.h>
#endif

#ifdef WITH_TRE
extern "C" {
typedef struct { size_t re_nsub; void *value; } tre_regex;
typedef struct { int rm_so; int rm_eo; } tre_match;
int tre_regncomp(tre_regex *, const char *, size_t, int);
int tre_regnexec(const tre_regex *, const char *, size_t, size_t, tre_match *, int);
}
#endif

// Patterns that mean the same to all: letters, classes, choices, stars. None begins with u, n or x.
static const std::vector<std::string> rules = {
    "core/(tx|rx)[0-3]/d[0-9][0-9]*",
    "core/(tx|rx)[0-3]/(clk|clk_n)",
    "core/lane[0-9]*/bit[0-9]*",
    "core/phy[0-7]/(en|rst)",
    "pad/a[0-9][0-9]*",
    "pad/(dq|dqs)[0-9]*",
    "mem/bank[0-3]/row[0-9]*",
    "mem/bank[0-3]/(we|oe|cs)",
    "bus/m[0-9]/addr[0-9]*",
    "bus/m[0-9]/data[0-9]*",
    "bus/s[0-9]/(ack|err|rty)",
    "dft/scan(in|out)[0-9]*",
    "dft/(tck|tms|tdi|tdo)",
    "io/gpio[0-9]*/(i|o|oe)",
    "io/uart[0-3]/(tx|rx|cts|rts)",
    "top/(vdd|vss)[0-9]*",
};

static uint32_t seed = 12345;
static uint32_t below(uint32_t n) {
    seed = seed * 1664525u + 1013904223u;
    return (seed >> 8) % n;
}
static std::string number(uint32_t n) { return std::to_string(below(n)); }

// Nine of ten names belong to blocks that no rule speaks of.
static std::string other_name() {
    static const char *blocks[] = {"u_cpu", "net", "xbar", "u_dma", "n_sync", "xcvr"};
    return std::string(blocks[below(6)]) + "/lane" + number(16) + "/data_out_" + number(64);
}

static std::string rule_name() {
    switch (below(8)) {
    case 0: return "core/tx" + number(4) + "/d" + number(128);
    case 1: return "core/rx" + number(4) + "/clk_n";
    case 2: return "core/lane" + number(64) + "/bit" + number(32);
    case 3: return "pad/dqs" + number(32);
    case 4: return "mem/bank" + number(4) + "/row" + number(4096);
    case 5: return "bus/m" + number(10) + "/data" + number(64);
    case 6: return "io/gpio" + number(128) + "/oe";
    default: return "core/lane" + number(64) + "/word" + number(32);
    }
}

static void put_span(std::string &out, long place, long start, long end) {
    out += ' ';
    out += std::to_string(place);
    out += ':';
    out += std::to_string(start);
    out += '-';
    out += std::to_string(end);
}

struct Result {
    const char *who;
    double seconds;
    size_t answered;
};

static double now() {
    return std::chrono::duration<double>(std::chrono::steady_clock::now().time_since_epoch()).count();
}

// netread: rules and names go in as text, in inputs of at most 65,536 bytes, and text comes out.
static Result run_netread(const std::vector<std::string> &names) {
    std::string head = "posix\n";
    for (const auto &r : rules) head += "r " + r + "\n";
    std::vector<std::string> inputs(1, head);
    for (const auto &n : names) {
        if (inputs.back().size() + n.size() + 3 > 65536) inputs.push_back(head);
        inputs.back() += "n " + n + "\n";
    }
    std::vector<uint8_t> out(1 << 22);
    size_t answered = 0;
    double start = now();
    for (const auto &in : inputs) {
        size_t n = netread_serve(reinterpret_cast<const uint8_t *>(in.data()), in.size(), out.data(), out.size());
        if (n > out.size()) { fprintf(stderr, "netread: no room or no memory\n"); return {"netread", 0, 0}; }
        bool fresh = true;
        for (size_t i = 0; i < n; i++) {
            if (fresh && out[i] >= '0' && out[i] <= '9') answered++;
            fresh = out[i] == '\n';
        }
    }
    return {"netread", now() - start, answered};
}

static Result run_glibc(const std::vector<std::string> &names) {
    std::vector<regex_t> res(rules.size());
    for (size_t i = 0; i < rules.size(); i++) regcomp(&res[i], ("^(" + rules[i] + ")$").c_str(), REG_EXTENDED);
    std::string out;
    size_t answered = 0;
    double start = now();
    for (const auto &n : names) {
        regmatch_t m[8];
        size_t i = 0;
        while (i < res.size() && regexec(&res[i], n.c_str(), 8, m, 0) != 0) i++;
        if (i == res.size()) { out += "-\n"; continue; }
        answered++;
        out += std::to_string(i);
        for (int g = 0; g < 8; g++) if (m[g].rm_so >= 0) put_span(out, g, m[g].rm_so, m[g].rm_eo);
        out += '\n';
        if (out.size() > (1 << 20)) out.clear();
    }
    double took = now() - start;
    for (auto &r : res) regfree(&r);
    return {"glibc regexec", took, answered};
}

#ifdef WITH_TRE
static Result run_tre(const std::vector<std::string> &names) {
    std::vector<tre_regex> res(rules.size());
    for (size_t i = 0; i < rules.size(); i++) {
        std::string p = "^(" + rules[i] + ")$";
        tre_regncomp(&res[i], p.data(), p.size(), REG_EXTENDED);
    }
    std::string out;
    size_t answered = 0;
    double start = now();
    for (const auto &n : names) {
        tre_match m[8];
        size_t i = 0;
        while (i < res.size() && tre_regnexec(&res[i], n.data(), n.size(), 8, m, 0) != 0) i++;
        if (i == res.size()) { out += "-\n"; continue; }
        answered++;
        out += std::to_string(i);
        for (int g = 0; g < 8; g++) if (m[g].rm_so >= 0) put_span(out, g, m[g].rm_so, m[g].rm_eo);
        out += '\n';
        if (out.size() > (1 << 20)) out.clear();
    }
    return {"TRE", now() - start, answered};
}
#endif

#ifdef WITH_RE2
static RE2::Options posix_options() {
    RE2::Options options;
    options.set_longest_match(true);
    options.set_encoding(RE2::Options::EncodingLatin1);
    return options;
}

static void put_groups(std::string &out, const std::string &name, size_t place, const re2::StringPiece *m, int groups) {
    out += std::to_string(place);
    for (int g = 0; g < groups; g++)
        if (m[g].data()) put_span(out, g, m[g].data() - name.data(), m[g].data() - name.data() + m[g].size());
    out += '\n';
}

// One pattern after the other.
static Result run_re2(const std::vector<std::string> &names) {
    std::vector<RE2 *> res;
    for (const auto &r : rules) res.push_back(new RE2(r, posix_options()));
    std::string out;
    size_t answered = 0;
    double start = now();
    for (const auto &n : names) {
        re2::StringPiece m[4];
        size_t i = 0;
        int groups = 0;
        for (; i < res.size(); i++) {
            groups = 1 + res[i]->NumberOfCapturingGroups();
            if (res[i]->Match(n, 0, n.size(), RE2::ANCHOR_BOTH, m, groups)) break;
        }
        if (i == res.size()) { out += "-\n"; continue; }
        answered++;
        put_groups(out, n, i, m, groups);
        if (out.size() > (1 << 20)) out.clear();
    }
    double took = now() - start;
    for (auto *r : res) delete r;
    return {"RE2, one by one", took, answered};
}

// All patterns in one automaton first, and then the one that governs.
static Result run_re2_set(const std::vector<std::string> &names) {
    RE2::Set set(posix_options(), RE2::ANCHOR_BOTH);
    std::vector<RE2 *> res;
    for (const auto &r : rules) {
        set.Add(r, nullptr);
        res.push_back(new RE2(r, posix_options()));
    }
    set.Compile();
    std::string out;
    size_t answered = 0;
    std::vector<int> found;
    double start = now();
    for (const auto &n : names) {
        if (!set.Match(n, &found)) { out += "-\n"; continue; }
        size_t i = found[0];
        for (int f : found) if (static_cast<size_t>(f) < i) i = f;
        re2::StringPiece m[4];
        int groups = 1 + res[i]->NumberOfCapturingGroups();
        if (!res[i]->Match(n, 0, n.size(), RE2::ANCHOR_BOTH, m, groups)) continue;
        answered++;
        put_groups(out, n, i, m, groups);
        if (out.size() > (1 << 20)) out.clear();
    }
    double took = now() - start;
    for (auto *r : res) delete r;
    return {"RE2::Set, then RE2", took, answered};
}
#endif

// The quickest of five runs.
static Result best(Result (*run)(const std::vector<std::string> &), const std::vector<std::string> &names) {
    Result least = run(names);
    for (int i = 1; i < 5; i++) {
        Result next = run(names);
        if (next.seconds < least.seconds) least = next;
    }
    return least;
}

int main(int argc, char **argv) {
    size_t count = argc > 1 ? strtoul(argv[1], nullptr, 10) : 200000;
    std::vector<std::string> names;
    for (size_t i = 0; i < count; i++) names.push_back(i % 10 == 0 ? rule_name() : other_name());

    std::vector<Result> results = {best(run_netread, names), best(run_glibc, names)};
#ifdef WITH_TRE
    results.push_back(best(run_tre, names));
#else
    printf("TRE: its development package is not installed, so it is left out\n");
#endif
#ifdef WITH_RE2
    results.push_back(best(run_re2, names));
    results.push_back(best(run_re2_set, names));
#else
    printf("RE2: its development package is not installed, so it is left out\n");
#endif
    double base = count / results[0].seconds;
    printf("%zu names, %zu rules\n%-20s %12s %10s %22s\n", count, rules.size(), "", "names/s", "answered", "netread is faster by");
    for (const auto &r : results)
        printf("%-20s %12.0f %10zu %21.2fx\n", r.who, count / r.seconds, r.answered, base / (count / r.seconds));
    for (const auto &r : results)
        if (r.answered != results[0].answered) { printf("%s answers another number of names\n", r.who); return 1; }
    return 0;
}

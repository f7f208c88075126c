/* Serves a constraint file given by its path, and prints the answers. */
#include <stdio.h>
#include <stdlib.h>

#include "netread.h"

int main(int argc, char **argv) {
    static uint8_t input[65536];
    uint8_t none[1];
    if (argc != 2) {
        fprintf(stderr, "usage: %s FILE\n", argv[0]);
        return 2;
    }
    FILE *file = fopen(argv[1], "rb");
    if (!file) {
        perror(argv[1]);
        return 2;
    }
    size_t length = fread(input, 1, sizeof input, file);
    fclose(file);

    /* The first call has no room and tells how much is needed; the second writes. */
    size_t need = netread_serve(input, length, none, 0);
    if (need == NETREAD_NO_MEMORY) return 1;
    uint8_t *output = malloc(need + 1);
    if (!output) return 1;
    if (netread_serve(input, length, output, need) != need) return 1;
    fwrite(output, 1, need, stdout);
    free(output);
    return 0;
}

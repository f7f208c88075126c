/* netread for C: a constraint file in, its answers out. docs/c.md says how to build with it. */
#ifndef NETREAD_H
#define NETREAD_H

#include <stddef.h>
#include <stdint.h>

#ifdef __cplusplus
extern "C" {
#endif

/* What netread_serve returns where memory is wanting. */
#define NETREAD_NO_MEMORY SIZE_MAX

/*
 * Serves the lines of the input (its first 65,536 bytes) and writes what they print to the front of the output.
 * Returns how many bytes that is. If the output has fewer, nothing is written: call again with as many.
 * Neither pointer may be null, even where its length is 0, and the two must not overlap. Nothing is kept between calls.
 */
size_t netread_serve(const uint8_t *input, size_t input_len, uint8_t *output, size_t output_len);

#ifdef __cplusplus
}
#endif

#endif

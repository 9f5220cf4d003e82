/* What the C samples of this manual use besides the library: one line of output for a number, for bytes in hexadecimal, for a text. */
#include <inttypes.h>
#include <stdint.h>
#include <stdio.h>
#include <string.h>

#include "fantailclock.h"

static inline void number(const char *name, uint64_t value) { printf("%s %" PRIu64 "\n", name, value); }

static inline void bytes(const char *name, const uint8_t *from, uint64_t count) {
    printf("%s", name);
    for (uint64_t i = 0; i < count; i++) printf(" %02X", from[i]);
    printf("\n");
}

static inline void text(const char *name, const uint8_t *from, uint64_t count) { printf("%s %.*s\n", name, (int)count, (const char *)from); }

/* What compare/turns measures: the benchmark's rows, made by one library. */
#ifndef ROWS_H
#define ROWS_H

#include <stddef.h>
#include <stdint.h>

/* What a row works on: a text of an alphabet, whether it is folded, the packing, how many bases a piece or a window has and where windows start, memory for the
 * answer. */
struct work {
    uint64_t alphabet, bits, fold;
    const uint8_t *text, *packed;
    size_t bases, packed_bytes, piece;
    const uint32_t *starts;
    uint8_t *out;
    size_t room;
};

typedef void row(const struct work *work);

enum { MOST_WINDOWS = 20000, WINDOWS_BEFORE = 500000 };

/* How many windows of so many bases a row reads; all end within the first half million bases. */
static inline size_t windows_of(size_t bases) { return 2000000 / bases < MOST_WINDOWS ? 2000000 / bases : MOST_WINDOWS; }

/* The rows of one library, and whether it folds: the earlier one's functions have other names in the program, so that both can be linked. */
struct side {
    row *guess, *guesser_update, *update, *encode_sequence, *decode, *window, *covered, *stream;
    int folds;
};

extern const struct side before, now;

#endif

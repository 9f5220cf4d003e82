/*
 * Two libraries in one process, by turns: `before` and `now`. In each round both make a row's calls, the first of them changing with the round. Prints for
 * each row, tab between: its name, the best time of each in nanoseconds, a call for windows and a pass for other rows, the ratio of these, and the median of
 * the rounds' own ratios. What the two leave in memory is compared, and a difference ends the program with 1.
 */
#include <ctype.h>
#include <stdio.h>
#include <stdlib.h>
#include <string.h>
#include <time.h>

#include "rows.h"

enum { MOST_ROUNDS = 1000 };

static const struct {
    const char *name, *symbols;
    uint64_t bits;
} alphabets[] = {
    {"Dna2bit", "ACGT", 2},
    {"Dna3bit", "ACGTNRYU", 3},
    {"DnaIupac", "ACGTNRYSWKMBDHVU", 4},
    {"Protein", "ACDEFGHIKLMNPQRSTVWY*X-.UBZOJ", 5},
    {"Ascii", "ACGTacgtNn", 8},
};

/* A row: its name, which function of a side makes it, the bases of a piece or a window, and how many of the alphabets have it. One whose name begins with
 * `folded` folds a soft-masked text, and is left out unless both libraries can. */
static const struct {
    const char *name;
    size_t place, piece;
    int alphabets;
} rows[] = {
    {"guess", offsetof(struct side, guess), 0, 4},
    {"guesser_update 64", offsetof(struct side, guesser_update), 64, 1},
    {"guesser_update 4096", offsetof(struct side, guesser_update), 4096, 1},
    {"guesser_update 65536", offsetof(struct side, guesser_update), 65536, 1},
    {"update 64", offsetof(struct side, update), 64, 5},
    {"update 4096", offsetof(struct side, update), 4096, 5},
    {"update 65536", offsetof(struct side, update), 65536, 5},
    {"encode_sequence", offsetof(struct side, encode_sequence), 0, 5},
    {"folded update 64", offsetof(struct side, update), 64, 5},
    {"folded update 4096", offsetof(struct side, update), 4096, 5},
    {"folded update 65536", offsetof(struct side, update), 65536, 5},
    {"folded encode_sequence", offsetof(struct side, encode_sequence), 0, 5},
    {"decode", offsetof(struct side, decode), 0, 5},
    {"window 1 zero-filling", offsetof(struct side, window), 1, 5},
    {"window 1 covered", offsetof(struct side, covered), 1, 5},
    {"window 4 zero-filling", offsetof(struct side, window), 4, 5},
    {"window 4 covered", offsetof(struct side, covered), 4, 5},
    {"window 10 zero-filling", offsetof(struct side, window), 10, 5},
    {"window 10 covered", offsetof(struct side, covered), 10, 5},
    {"window 100 zero-filling", offsetof(struct side, window), 100, 5},
    {"window 100 covered", offsetof(struct side, covered), 100, 5},
    {"window 1000 zero-filling", offsetof(struct side, window), 1000, 5},
    {"window 1000 covered", offsetof(struct side, covered), 1000, 5},
    {"window 100000 zero-filling", offsetof(struct side, window), 100000, 5},
    {"window 100000 covered", offsetof(struct side, covered), 100000, 5},
    {"stream 65536", offsetof(struct side, stream), 65536, 5},
};

static row *row_of(const struct side *side, size_t place) { return *(row *const *)((const char *)side + place); }

static double timed(row *calls, const struct work *work) {
    struct timespec from, to;
    clock_gettime(CLOCK_MONOTONIC, &from);
    calls(work);
    clock_gettime(CLOCK_MONOTONIC, &to);
    return (double)(to.tv_sec - from.tv_sec) * 1e9 + (double)(to.tv_nsec - from.tv_nsec);
}

static int by_size(const void *a, const void *b) {
    double x = *(const double *)a, y = *(const double *)b;
    return (x > y) - (x < y);
}

/* Measures one row, and says whether both sides left the same memory. */
static int measure(const char *name, size_t place, size_t calls, int rounds, const struct work *earlier, const struct work *present) {
    static double then[MOST_ROUNDS], here[MOST_ROUNDS], ratio[MOST_ROUNDS];
    memset(earlier->out, 0x5A, earlier->room);
    memset(present->out, 0x5A, present->room);
    for (int round = -1; round < rounds; round++) {
        int kept = round < 0 ? 0 : round;
        if (kept % 2) then[kept] = timed(row_of(&before, place), earlier);
        here[kept] = timed(row_of(&now, place), present);
        if (kept % 2 == 0) then[kept] = timed(row_of(&before, place), earlier);
        ratio[kept] = here[kept] / then[kept];
    }
    qsort(then, rounds, sizeof *then, by_size);
    qsort(here, rounds, sizeof *here, by_size);
    qsort(ratio, rounds, sizeof *ratio, by_size);
    printf("%s\t%.1f\t%.1f\t%.3f\t%.3f\n", name, then[0] / calls, here[0] / calls, here[0] / then[0], ratio[rounds / 2]);
    fflush(stdout);
    return memcmp(earlier->out, present->out, present->room) == 0;
}

static int wanted(const char *name, int count, char **words) {
    if (count == 0) return 1;
    for (int i = 0; i < count; i++)
        if (strstr(name, words[i])) return 1;
    return 0;
}

static uint8_t *memory(size_t size) {
    uint8_t *found = malloc(size);
    if (!found) exit(2);
    return found;
}

/* The next of a row of pseudo-random numbers, which begins with a state that is not 0. */
static uint64_t next(uint64_t *state) {
    *state ^= *state << 13;
    *state ^= *state >> 7;
    *state ^= *state << 17;
    return *state >> 33;
}

/* A pseudo-random text, the same in every run. */
static void fill(uint8_t *text, size_t bases, const char *symbols) {
    uint64_t state = 0x9E3779B97F4A7C15u;
    size_t count = strlen(symbols);
    for (size_t i = 0; i < bases; i++) text[i] = (uint8_t)symbols[next(&state) % count];
}

/* The text soft-masked: runs of 100 to 500 symbols, every other one of them in lowercase. */
static void soft_mask(uint8_t *soft, const uint8_t *text, size_t bases) {
    uint64_t state = 0x9E3779B97F4A7C15u;
    size_t end = 0;
    int lower = 1;
    for (size_t i = 0; i < bases; i++) {
        if (i == end) {
            end += 100 + next(&state) % 401;
            lower = !lower;
        }
        soft[i] = (uint8_t)(lower ? tolower(text[i]) : toupper(text[i]));
    }
}

/* Where windows start: pseudo-random, so that a processor cannot foresee in which bit of a byte. */
static void place(uint32_t *starts, size_t bases) {
    uint64_t state = 0xD1B54A32D192ED03u;
    for (size_t i = 0; i < windows_of(bases); i++) starts[i] = (uint32_t)(next(&state) % (WINDOWS_BEFORE - bases));
}

int main(int count, char **words) {
    int rounds = count > 1 ? atoi(words[1]) : 0, same = 1;
    size_t bases = (size_t)(count > 2 ? atoi(words[2]) : 0) << 20;
    if (rounds < 1 || rounds > MOST_ROUNDS || bases == 0) {
        fprintf(stderr, "usage: turns ROUNDS MEBI [WORD ..]\n");
        return 2;
    }
    uint8_t *text = memory(bases), *soft = memory(bases), *packed = memory(bases), *earlier_out = memory(bases), *present_out = memory(bases);
    static uint32_t starts[MOST_WINDOWS];
    for (int alphabet = 0; alphabet < 5; alphabet++) {
        uint64_t bits = alphabets[alphabet].bits;
        fill(text, bases, alphabets[alphabet].symbols);
        soft_mask(soft, text, bases);
        struct work present = {alphabet, bits, 0, text, packed, bases, (bases * bits + 7) / 8, 0, starts, packed, bases};
        now.encode_sequence(&present);
        for (size_t i = 0; i < sizeof rows / sizeof *rows; i++) {
            char name[64];
            snprintf(name, sizeof name, "%s %s", rows[i].name, alphabets[alphabet].name);
            int folds = strncmp(name, "folded", 6) == 0;
            if (alphabet >= rows[i].alphabets || !wanted(name, count - 3, words + 3) || (folds && !(before.folds && now.folds))) continue;
            present.fold = folds;
            present.text = folds ? soft : text;
            present.piece = rows[i].piece;
            int reads_windows = strncmp(name, "window", 6) == 0;
            if (reads_windows) place(starts, rows[i].piece);
            present.out = present_out;
            struct work earlier = present;
            earlier.out = earlier_out;
            size_t calls = reads_windows ? windows_of(rows[i].piece) : 1;
            if (!measure(name, rows[i].place, calls, rounds, &earlier, &present)) {
                fprintf(stderr, "%s: the two libraries leave different memory\n", name);
                same = 0;
            }
        }
    }
    return same ? 0 : 1;
}

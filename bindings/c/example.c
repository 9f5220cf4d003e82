/*
 * Packs a text, one with lowercase letters too, tells a stray letter from a wrong file by the number of bytes that are no members, guesses a genome's alphabet
 * chromosome by chromosome, asks what the pieces of a text need before it lends memory for them, fetches a window by byte range and covered read, also out of a file
 * that a disk has damaged, and streams the same window byte by byte.
 *
 *     cc -std=c11 -Iinclude bindings/c/example.c target/staticlib/libfantailclock.a -o example && ./example
 *
 * What it must print stands in example.expected, written from the worked table of the rules.
 */
#include <inttypes.h>
#include <stdio.h>
#include <string.h>

#include "fantailclock.h"

static const char *const status_names[] = {"refused", "Hungry", "Done", "Full"};

/* The packing of a text in an alphabet, folded or not; the count of bytes, 0 where it is refused. */
static size_t pack(uint64_t alphabet, uint64_t fold, const uint8_t *text, size_t len, uint8_t *out, size_t room) {
    uint8_t name[8];
    fc_count named = fc_display_name(alphabet, name, sizeof name);
    fc_packed packed = fc_encode_sequence(alphabet, fold, text, len, out, room);
    printf("%.*s %.*s:", (int)named.count, (const char *)name, (int)len, (const char *)text);
    if (packed.refusal != 0) {
        printf(" refused %" PRIu64 ", position %" PRIu64 ", byte %02" PRIX64 ", ", packed.refusal, packed.position, packed.byte);
        printf("%" PRIu64 " of %zu are no members\n", packed.bad_count, len);
        return 0;
    }
    for (uint64_t i = 0; i < packed.count; i++)
        printf(" %02X", out[i]);
    printf("\n");
    return (size_t)packed.count;
}

/* The alphabet of a genome: each chromosome is guessed once, all by the same choice to fold, and the guesses are combined. */
static uint64_t guess_genome(uint64_t fold, const char *const *chromosomes, size_t count) {
    uint64_t genome = FC_DNA2BIT;
    printf("guesses%s:", fold ? ", folded" : "");
    for (size_t i = 0; i < count; i++) {
        uint64_t guess = fc_guess_alphabet(fold, (const uint8_t *)chromosomes[i], strlen(chromosomes[i])).value;
        genome = fc_later_alphabet(genome, guess).value;
        printf(" %s %" PRIu64 ",", chromosomes[i], guess);
    }
    printf(" the genome %" PRIu64 "\n", genome);
    return genome;
}

/* A text in pieces, of which each is asked about before a page is lent: many need none, and the others are lent just the bytes that they use. */
static void schedule(uint64_t alphabet, const char *const *pieces, size_t count) {
    uint8_t page[16];
    fc_encoder state = fc_encoder_new(alphabet, 0).next;
    for (size_t i = 0; i < count; i++) {
        const uint8_t *piece = (const uint8_t *)pieces[i];
        size_t len = strlen(pieces[i]);
        fc_updated asked = fc_encoder_ask(state, piece, len, 0);
        printf("%s: ", pieces[i]);
        if (asked.refusal == FC_REFUSED_SHORT_MEMORY) { /* it completes a byte */
            asked = fc_encoder_ask(state, piece, len, UINT64_MAX);
            fc_updated step = fc_encoder_update(state, piece, len, page, (size_t)asked.count);
            printf("a page, %" PRIu64 " bytes of it:", asked.count);
            for (uint64_t byte = 0; byte < step.count; byte++)
                printf(" %02X", page[byte]);
        } else {
            printf("no page");
        }
        state = asked.next; /* which is the update's; where no byte is written, asking was enough */
        printf("; %" PRIu64 " bits pend, %" PRIu64 " of %" PRIu64 " are no members\n", state.pending_bits, state.bad_count, state.seen);
    }
}

/* The bases from `start` to `end` out of the file's bytes that hold them, of which `missing` were not fetched. */
static void fetch(uint64_t alphabet, const uint8_t *file, uint64_t start, uint64_t end, size_t missing) {
    uint8_t bases[16];
    fc_range range = fc_byte_range_for_bases(start, end, fc_bits_per_symbol(alphabet).value);
    size_t fetched = (size_t)(range.end - range.start) - missing;
    fc_covered read = fc_decode_covered(alphabet, file + range.start, fetched, range.start, start, end, bases, sizeof bases);
    printf("bases %" PRIu64 " to %" PRIu64 ", bytes %" PRIu64 " to %" PRIu64 ", %zu fetched: ", start, end, range.start, range.end, fetched);
    if (read.refusal == FC_REFUSED_NO_SYMBOL)
        printf("refused %" PRIu64 ", the code of base %" PRIu64 " is no symbol's\n", read.refusal, read.value);
    else if (read.refusal != 0)
        printf("refused %" PRIu64 "\n", read.refusal);
    else
        printf("%.*s\n", (int)read.count, (const char *)bases);
}

/* The same window, its bytes coming one at a time; the end call after each says what is still to come. */
static void stream(uint64_t alphabet, const uint8_t *file, uint64_t start, uint64_t end) {
    uint8_t bases[4];
    uint64_t bits = fc_bits_per_symbol(alphabet).value;
    fc_range range = fc_byte_range_for_bases(start, end, bits);
    fc_stream state = fc_stream_new(alphabet, start * bits % 8, end - start).next;
    for (uint64_t at = range.start; at < range.end; at++) {
        fc_streamed step = fc_stream_read(state, file + at, 1, bases, sizeof bases);
        fc_ended ended = fc_stream_end(step.next);
        printf("byte %" PRIu64 ": %" PRIu64 " taken, %" PRIu64 " written, %s; ", at, step.taken, step.written, status_names[step.status]);
        printf("\"%.*s\"; end %" PRIu64 ", %" PRIu64 " outstanding\n", (int)step.written, (const char *)bases, ended.refusal, ended.outstanding);
        state = step.next;
    }
}

int main(void) {
    static const uint8_t text[] = {'A', 'C', 'G', 'T', 'N', 'R', 'Y', 'U'};
    static const uint8_t strange[] = {'A', 'C', 'N', 'T'};
    static const uint8_t protein[] = {'M', 'K', 'A', 'L', 'E', '*'};
    static const uint8_t masked[] = {'A', 'C', 'g', 't', 'n'};
    static const char *const chromosomes[] = {"ACGT", "acgtn", "GATtaca"};
    static const char *const pieces[] = {"AC", "GTACGT", "N"};
    size_t count = sizeof chromosomes / sizeof *chromosomes;
    uint8_t file[16];
    uint64_t alphabet = fc_guess_alphabet(0, text, sizeof text).value;

    pack(FC_DNA2BIT, 0, strange, sizeof strange, file, sizeof file);
    pack(FC_DNA2BIT, 0, protein, sizeof protein, file, sizeof file);
    pack(FC_DNA2BIT, 0, text, 4, file, sizeof file);
    pack(fc_guess_alphabet(0, masked, 4).value, 0, masked, 4, file, sizeof file);
    pack(fc_guess_alphabet(1, masked, 4).value, 1, masked, 4, file, sizeof file);
    pack(FC_DNA2BIT, 1, masked, sizeof masked, file, sizeof file);
    guess_genome(0, chromosomes, count);
    uint64_t genome = guess_genome(1, chromosomes, count);
    for (size_t i = 0; i < count; i++)
        pack(genome, 1, (const uint8_t *)chromosomes[i], strlen(chromosomes[i]), file, sizeof file);
    schedule(FC_DNA2BIT, pieces, sizeof pieces / sizeof *pieces);
    if (pack(alphabet, 0, text, sizeof text, file, sizeof file) == 0)
        return 1;
    fetch(alphabet, file, 2, 6, 0);
    fetch(alphabet, file, 2, 6, 1);
    stream(alphabet, file, 2, 6);
    if (pack(FC_PROTEIN, 0, protein, sizeof protein, file, sizeof file) == 0)
        return 1;
    file[2] = 0xFF; /* as a disk may lose a byte: base 4 then has code 31 */
    fetch(FC_PROTEIN, file, 0, 6, 0);
    fetch(FC_PROTEIN, file, 0, 3, 0);
    return 0;
}

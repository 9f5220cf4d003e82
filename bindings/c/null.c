/*
 * Empty memory by a null pointer: every call that takes memory, with null and length 0 for its input, for its output memory and for both, must answer and
 * write what it does with a valid address and length 0; so must it with a pointer that is not null and names nothing, as Rust's empty slices have. A read or
 * a write through either would end the program. It prints the calls by name and how many were compared.
 */
#include <stdio.h>
#include <string.h>

#include "fantailclock.h"

enum { INPUT = 64, ROOM = 1024, WORDS = 12 };

typedef struct { const uint8_t *at; size_t len; } lent;
typedef struct { uint8_t *at; size_t room; } memory;

/* What a call gets besides memory; each takes what it needs. */
typedef struct { uint64_t alphabet, byte_offset, start, end, skip, seen, fold; } given;

typedef void call(given g, lent in, memory out, uint64_t *answer);

#define TELL(type, made)                                                                                                                                  \
    do {                                                                                                                                                  \
        type told = (made);                                                                                                                               \
        memcpy(answer, &told, sizeof told);                                                                                                               \
    } while (0)
#define CALL(name) static void name(given g, lent in, memory out, uint64_t *answer)

/* States under way, so that bits pend. A stream with more than 7 of them is not sound, nor is a state that has 2 for its choice, or a non-member where there can be
 * none, and its calls are refused. */
static fc_encoder encoder(given g) {
    uint64_t bits = fc_bits_per_symbol(g.alphabet).value;
    uint64_t bad = g.start % 2; /* by the window: with a non-member, the first symbol seen and the only one */
    fc_encoder state = {g.alphabet, g.seen, g.seen * bits % 8, 0, bad, 0, '{', g.fold, bad};
    return state;
}

static fc_stream stream(given g) {
    fc_stream state = {g.alphabet, g.skip, g.end, g.skip ? 0 : g.seen, 0};
    return state;
}

static fc_guesser guesser(given g) {
    fc_guesser state = {31 - g.start, g.fold};
    return state;
}

CALL(display_name) { (void)in; TELL(fc_count, fc_display_name(g.alphabet, out.at, out.room)); }
CALL(guesser_update) { (void)out; TELL(fc_guessing, fc_guesser_update(guesser(g), in.at, in.len)); }
CALL(guess_alphabet) { (void)out; TELL(fc_number, fc_guess_alphabet(g.fold, in.at, in.len)); }
CALL(encoder_update) { TELL(fc_updated, fc_encoder_update(encoder(g), in.at, in.len, out.at, out.room)); }
CALL(encoder_ask) { TELL(fc_updated, fc_encoder_ask(encoder(g), in.at, in.len, out.room)); }
CALL(encoder_finalize) { (void)in; TELL(fc_packed, fc_encoder_finalize(encoder(g), out.at, out.room)); }
CALL(encode_sequence) { TELL(fc_packed, fc_encode_sequence(g.alphabet, g.fold, in.at, in.len, out.at, out.room)); }
CALL(stream_read) { TELL(fc_streamed, fc_stream_read(stream(g), in.at, in.len, out.at, out.room)); }
CALL(at_offset) {
    TELL(fc_count, fc_decode_substring_from_bytes_at_offset(g.alphabet, in.at, in.len, g.byte_offset, g.start, g.end, out.at, out.room));
}
CALL(substring) { TELL(fc_count, fc_decode_substring_from_bytes(g.alphabet, in.at, in.len, g.start, g.end, out.at, out.room)); }
CALL(string) { TELL(fc_count, fc_decode_string_from_bytes(g.alphabet, in.at, in.len, g.end, out.at, out.room)); }
CALL(covered) { TELL(fc_covered, fc_decode_covered(g.alphabet, in.at, in.len, g.byte_offset, g.start, g.end, out.at, out.room)); }
CALL(rolling) { TELL(fc_count, fc_decode_rolling(g.alphabet, in.at, in.len, g.byte_offset, g.start, g.end, out.at, out.room)); }
#define ENGINE(name) CALL(name) { TELL(fc_count, fc_##name(in.at, in.len, g.byte_offset, g.start, g.end, out.at, out.room)); }
ENGINE(decode_2bit)
ENGINE(decode_3bit)
ENGINE(decode_4bit)
ENGINE(decode_5bit)

static const struct {
    const char *name;
    call *made;
} calls[] = {
    {"fc_display_name", display_name},
    {"fc_guesser_update", guesser_update},
    {"fc_guess_alphabet", guess_alphabet},
    {"fc_encoder_update", encoder_update},
    {"fc_encoder_ask", encoder_ask},
    {"fc_encoder_finalize", encoder_finalize},
    {"fc_encode_sequence", encode_sequence},
    {"fc_stream_read", stream_read},
    {"fc_decode_substring_from_bytes_at_offset", at_offset},
    {"fc_decode_substring_from_bytes", substring},
    {"fc_decode_string_from_bytes", string},
    {"fc_decode_covered", covered},
    {"fc_decode_rolling", rolling},
    {"fc_decode_2bit", decode_2bit},
    {"fc_decode_3bit", decode_3bit},
    {"fc_decode_4bit", decode_4bit},
    {"fc_decode_5bit", decode_5bit},
};

static const uint64_t far = ((uint64_t)1 << 60) + 1;
static unsigned long compared, wrong;
static uint8_t room[2][ROOM];

static void same(const char *name, call *made, given g, size_t in_len, size_t out_len, const uint8_t *input, uint8_t *nowhere) {
    uint64_t answers[2][WORDS] = {{0}, {0}};
    memset(room, 0xA5, sizeof room);
    lent by_address = {input, in_len}, by_null = {in_len ? input : nowhere, in_len};
    memory at_address = {room[0], out_len}, at_null = {out_len ? room[1] : nowhere, out_len};
    made(g, by_address, at_address, answers[0]);
    made(g, by_null, at_null, answers[1]);
    compared++;
    if (!memcmp(answers[0], answers[1], sizeof answers[0]) && !memcmp(room[0], room[1], ROOM)) return;
    wrong++;
    printf("%s of alphabet %llu answers differently for an empty slice at %p\n", name, (unsigned long long)g.alphabet, (void *)nowhere);
}

/* One call with all lengths of which one at least is 0. */
static void try_lengths(const char *name, call *made, given g) {
    static const uint8_t input[INPUT] = "ACGTACGTACGTACGTacgtacgtACGTACGT";
    static uint8_t *const nowhere[] = {NULL, (uint8_t *)1};
    static const size_t lengths[] = {0, 1, 5, INPUT}, rooms[] = {0, 1, 7, ROOM};
    for (size_t i = 0; i < 4; i++)
        for (size_t j = 0; j < 4; j++)
            for (size_t k = 0; k < 2 && (i == 0 || j == 0); k++) same(name, made, g, lengths[i], rooms[j], input, nowhere[k]);
}

static void try_call(const char *name, call *made) {
    const uint64_t windows[][3] = {{0, 0, 0}, {0, 5, 3}, {0, 0, 1}, {0, 0, 4}, {1, 2, 5}, {0, 3, 43}, {0, 1, 1001}, {0, 0, far}, {far, 0, 4}};
    for (uint64_t alphabet = 0; alphabet <= 6; alphabet++)
        for (size_t i = 0; i < sizeof windows / sizeof *windows; i++)
            for (uint64_t seen = 0; seen < 10; seen++)
                for (uint64_t fold = 0; fold <= 2; fold++) {
                    given g = {alphabet, windows[i][0], windows[i][1], windows[i][2], seen % 3 * 3, seen, fold};
                    try_lengths(name, made, g);
                }
}

int main(void) {
    for (size_t i = 0; i < sizeof calls / sizeof *calls; i++) {
        try_call(calls[i].name, calls[i].made);
        printf("%s\n", calls[i].name);
    }
    printf("%lu calls compared\n", compared);
    return wrong ? 1 : 0;
}

/*
 * The rows of one library, by its own header. Compiled once for each, as SIDE; for the earlier library with its functions' names changed. Each row makes the
 * calls that the benchmark's row of that name makes (src/bench/), and none looks at an answer beyond what the next call needs.
 */
#include "rows.h"

#include "fantailclock.h"

/* Version 1 has no choice to fold, and is asked for no row that does. Versions 2, 3 and 4 differ in fields that no row names, and in the type of what the
 * covered read answers, which no row keeps. */
#if FC_ABI_VERSION == 1
#define FOLDS 0
#define GUESSER(fold) fc_guesser_new()
#define GUESS(fold, text, len) fc_guess_alphabet(text, len)
#define ENCODER(alphabet, fold) fc_encoder_new(alphabet)
#define PACKING(alphabet, fold, text, len, out, room) fc_encode_sequence(alphabet, text, len, out, room)
#else
#define FOLDS 1
#define GUESSER(fold) fc_guesser_new(fold)
#define GUESS(fold, text, len) fc_guess_alphabet(fold, text, len)
#define ENCODER(alphabet, fold) fc_encoder_new(alphabet, fold)
#define PACKING(alphabet, fold, text, len, out, room) fc_encode_sequence(alphabet, fold, text, len, out, room)
#endif

static size_t least(size_t a, size_t b) { return a < b ? a : b; }

static void guess(const struct work *work) { GUESS(work->fold, work->text, work->bases); }

static void guesser_update(const struct work *work) {
    fc_guesser state = GUESSER(work->fold);
    for (size_t at = 0; at < work->bases; at += work->piece)
        state = fc_guesser_update(state, work->text + at, least(work->piece, work->bases - at)).next;
    fc_guesser_guess(state);
}

static void update(const struct work *work) {
    fc_encoder state = ENCODER(work->alphabet, work->fold).next;
    size_t written = 0;
    for (size_t at = 0; at < work->bases; at += work->piece) {
        fc_updated answer = fc_encoder_update(state, work->text + at, least(work->piece, work->bases - at), work->out + written, work->room - written);
        written += answer.count;
        state = answer.next;
    }
    fc_encoder_finalize(state, work->out + written, work->room - written);
}

static void encode_sequence(const struct work *work) { PACKING(work->alphabet, work->fold, work->text, work->bases, work->out, work->room); }

static void decode(const struct work *work) {
    fc_decode_string_from_bytes(work->alphabet, work->packed, work->packed_bytes, work->bases, work->out, work->room);
}

/* Windows that start where they were told, each lent the bytes that cover it. A macro, since two reads need not have an answer of one type. */
#define WINDOWS(row, read) \
    static void row(const struct work *work) { \
        size_t count = windows_of(work->piece); \
        for (size_t k = 0; k < count; k++) { \
            size_t start = work->starts[k], end = start + work->piece; \
            size_t low = start * work->bits / 8, high = (end * work->bits + 7) / 8; \
            read(work->alphabet, work->packed + low, high - low, low, start, end, work->out, work->room); \
        } \
    }

WINDOWS(window, fc_decode_substring_from_bytes_at_offset)
WINDOWS(covered, fc_decode_covered)

static void stream(const struct work *work) {
    fc_stream state = fc_stream_new(work->alphabet, 0, work->bases).next;
    size_t at = 0;
    fc_streamed answer;
    do {
        answer = fc_stream_read(state, work->packed + at, work->packed_bytes - at, work->out, least(work->piece, work->room));
        at += answer.taken;
        state = answer.next;
    } while (answer.refusal == 0 && answer.written != 0);
}

const struct side SIDE = {guess, guesser_update, update, encode_sequence, decode, window, covered, stream, FOLDS};

/*
 * Fantailclock: packed alphabets and their coders, for programs in C and C++.
 *
 * Every number is 64 bits wide. Structs go in and come back by value. Nothing is kept between calls, nothing is allocated, nothing is global: any
 * thread may call anything.
 *
 * Refusals. `refusal` is 0 for an accepted call, else a number of those below (FC_REFUSED_..). On a refusal
 *   - no byte of output memory changes;
 *   - every further number is 0, but for what 5, 7 and 18 tell: with 5 `position` and `byte` are those of the first non-member and `bad_count` is the number of
 *     all non-members, with 7 `outstanding` is the number of bases still to come, with 18 `value` is the base whose code is no symbol's;
 *   - `next`, where the answer has one, is the state that was handed in;
 *   - fc_guesser_guess, fc_encoder_finalize and fc_stream_end hand no state back, refused or not: it went in by value, and the caller still holds it;
 *   - a start has no state to hand back: it echoes its arguments in `next` as they came, with zeros beside them, so that this state is refused again.
 *
 * States. They are plain numbers, and every call judges the one that it gets. An `alphabet` above 5 is refused by 8, before all else. A state that no
 * guesser, encoder or stream can be in is unsound, and is refused by 1. `has_bad` is 0 or 1: a state in which it is more is unsound and refused by 1, and so is
 * one with a `pending`, a `pending_bits` or (where `has_bad` is 1) a `bad_byte` above 255, and one with a `fold` above 1. `bad_count` is 0 exactly
 * where `has_bad` is 0, and elsewhere at most the symbols seen from `bad_position` on, seen - bad_position: a state with any other count is unsound.
 *
 * Non-members. A byte that is no symbol of the alphabet, taken by the choice to fold, is a non-member, and a text that has one is refused by 5. A position
 * alone does not tell a stray letter from a wrong file; `bad_count`, beside the length of the text, does. In pieces it counts over all accepted pieces, and a
 * sound state's count is believed: the next one is that count plus the piece's non-members. A refused piece is not counted.
 *
 * Folding. Whoever starts a guesser or an encoder, or guesses or packs a whole text, chooses by `fold`: 0 takes every byte as it is, any other number folds.
 * With folding a byte 61 to 7A hexadecimal, a to z, has the code and the membership of its uppercase letter in the four packed alphabets, FC_DNA2BIT to
 * FC_PROTEIN; what was packed so reads back in uppercase. FC_ASCII and FC_UNKNOWN do not fold: every byte is itself there, and the state keeps the choice. The
 * choice is part of the state, 0 or 1, and no call changes it. A refusal 5 tells the byte as it was received, not its uppercase letter. The reads, the streams and
 * fc_contains know nothing of folding.
 *
 * Codes without a symbol. FC_PROTEIN's list has 29 symbols, and the codes 29, 30 and 31 are none's. No accepted text packs to them: a damaged disk leaves them, or
 * a text whose end was refused by 5. X, code 21, stands for a residue that was seen and is not known, and such a code is not that: fc_decode_covered refuses it by
 * 18. The zero-filling reads, the engines and the stream show X for it, as they always did. In the other alphabets every code is a symbol's.
 *
 * Memory. A pointer with a length names that many bytes, which the caller owns and which nothing else may write during the call. Where the length is 0
 * nothing is read or written through the pointer, which may then be any, null too. INPUT AND OUTPUT MEMORY OF ONE CALL MUST NOT OVERLAP: no call can notice
 * it, none refuses it, and the bases or packed bytes that come out are then wrong.
 */
#ifndef FANTAILCLOCK_H
#define FANTAILCLOCK_H

#include <stddef.h>
#include <stdint.h>

#ifdef __cplusplus
extern "C" {
#endif

/* The version of this header's structs. Compare it with fc_abi_version(), which tells the library's, when the program starts. */
#define FC_ABI_VERSION 4

/* The alphabets. */
enum { FC_DNA2BIT = 0, FC_DNA3BIT = 1, FC_DNA_IUPAC = 2, FC_PROTEIN = 3, FC_ASCII = 4, FC_UNKNOWN = 5 };

/* What `refusal` holds. */
enum {
    FC_ACCEPTED = 0,
    FC_REFUSED_UNSOUND = 1,      /* the state is not sound */
    FC_REFUSED_TOO_FAR = 2,      /* a position, or a number of symbols, above 2^60 */
    FC_REFUSED_UNCOVERED = 3,    /* bytes of the window's range are not lent */
    FC_REFUSED_SHORT_MEMORY = 4, /* the output memory is too short */
    FC_REFUSED_NOT_MEMBER = 5,   /* a byte that is no symbol of the alphabet: `position`, `byte` and `bad_count` */
    FC_REFUSED_BAD_SKIP = 6,     /* a skip above 7 */
    FC_REFUSED_OUTSTANDING = 7,  /* a stream that is not complete: `outstanding` */
    FC_REFUSED_NO_ALPHABET = 8,  /* no alphabet has this number */
    FC_REFUSED_TOO_WIDE = 9,     /* more than 8 bits a symbol */
    FC_REFUSED_NO_SYMBOL = 18    /* a code of the window that no symbol of the alphabet has: `value` */
};

/* What a stream waits for: source, nothing (the budget is used), memory. `status` is 0 on a refusal. */
enum { FC_HUNGRY = 1, FC_DONE = 2, FC_FULL = 3 };

typedef struct { uint64_t refusal, value; } fc_number;
typedef struct { uint64_t refusal, count; } fc_count;

/* value: the first base of the window whose code is no symbol's where the refusal is 18, else 0. */
typedef struct { uint64_t refusal, count, value; } fc_covered;

typedef struct { uint64_t refusal, start, end; } fc_range;

/* position, byte, bad_count: the first non-member and the number of all of them where the refusal is 5, else 0. */
typedef struct { uint64_t refusal, count, position, byte, bad_count; } fc_packed;

/* A guesser's state: the mask of the alphabets that hold every byte seen, 16 to 31; whether it folds, 0 or 1. */
typedef struct { uint64_t mask, fold; } fc_guesser;
typedef struct { uint64_t refusal; fc_guesser next; } fc_guessing;

/* An encoder's state: symbols seen; bits that fill no byte yet and their value; whether a byte was no member, 0 or 1, and the first such byte's position over
 * all pieces and its value as received (both ignored where `has_bad` is 0); whether it folds, 0 or 1; how many bytes of all accepted pieces were no members. */
typedef struct { uint64_t alphabet, seen, pending_bits, pending, has_bad, bad_position, bad_byte, fold, bad_count; } fc_encoder;
typedef struct { uint64_t refusal; fc_encoder next; } fc_encoder_started;
typedef struct { uint64_t refusal, count; fc_encoder next; } fc_updated;

/* A stream's state: bits still to be passed over (0: done, or never due), bases still to come, bits taken and not used and their value. */
typedef struct { uint64_t alphabet, skip, budget, pending_bits, pending; } fc_stream;
typedef struct { uint64_t refusal; fc_stream next; } fc_stream_started;

/* Source bytes taken, bases written, and FC_HUNGRY, FC_DONE or FC_FULL. */
typedef struct { uint64_t refusal, taken, written, status; fc_stream next; } fc_streamed;

/* outstanding: the bases still to come where the refusal is 7, else 0. */
typedef struct { uint64_t refusal, outstanding; } fc_ended;

/* The version of the structs that the library was built with: FC_ABI_VERSION, where library and header belong together. */
uint64_t fc_abi_version(void);

/* The bits per symbol. Refuses by 8. */
fc_number fc_bits_per_symbol(uint64_t alphabet);

/* 1 where the byte is a symbol of the alphabet, unfolded, else 0; a number above 255 is none. Refuses by 8. */
fc_number fc_contains(uint64_t alphabet, uint64_t byte);

/* The display name (dna2bit, dna3bit, dnaio, protein, ASCII, Unknown) at the front of `out`, with no zero behind it, and its length, at most 7.
 * Refuses by 8, then by 4. */
fc_count fc_display_name(uint64_t alphabet, uint8_t *out, size_t room);

/* A guesser that has seen nothing; it folds unless `fold` is 0. */
fc_guesser fc_guesser_new(uint64_t fold);

/* The state after a text, or after one more piece of it. Refuses by 1. */
fc_guessing fc_guesser_update(fc_guesser state, const uint8_t *text, size_t len);

/* The number of the first alphabet, in the order of numbers 0 to 4, that holds every byte seen, each taken by the state's choice. It hands no state back.
 * Refuses by 1. */
fc_number fc_guesser_guess(fc_guesser state);

/* The same for a whole text, folded unless `fold` is 0. Refuses nothing. */
fc_number fc_guess_alphabet(uint64_t fold, const uint8_t *text, size_t len);

/* The later of two alphabets in the order of numbers, FC_DNA2BIT the first and FC_UNKNOWN the last: for a genome's guess out of its chromosomes' guesses, with
 * no chromosome read again. The guess for one text followed by another is the later of their two guesses. So start from FC_DNA2BIT, which changes no guess, and
 * combine each chromosome's; their order and grouping do not matter, nor that one is combined twice. All must have been guessed by the same choice to fold. It
 * is guesses that are combined, not guessers' states. Refuses by 8, where either number is above 5; `value` is then 0, which is FC_DNA2BIT's number too. */
fc_number fc_later_alphabet(uint64_t one, uint64_t other);

/* An encoder that has seen nothing; it folds unless `fold` is 0. Refuses by 8. */
fc_encoder_started fc_encoder_new(uint64_t alphabet, uint64_t fold);

/* Packs a piece behind what pends and writes the bytes that it completes, `count` of them, at the front of `out`: (pending_bits + len * bits per symbol) / 8.
 * A byte that is no member counts as a symbol whose bits are all ones; the next state counts it, and fc_encoder_finalize reports it. Refuses by 8, 1, 2, 4. */
fc_updated fc_encoder_update(fc_encoder state, const uint8_t *piece, size_t len, uint8_t *out, size_t room);

/* What fc_encoder_update would answer with output memory of `room` bytes, next state and refusals included. `room` is a number, any up to UINT64_MAX: no memory
 * is lent, and nothing is written. It is for a scheduler, which wants to know what a piece needs before it lends a page. With `room` 0 the refusal 4 tells that
 * the piece needs a page at all: it completes a byte. With UINT64_MAX, or any number from 2^60 on, 4 never comes, and `count` is how many bytes the update will
 * use: lent so many or more it is accepted with the same `count` and `next`, lent fewer it is refused by 4. The piece's non-members are counted in `next` and
 * are never a refusal by 5. Go on from `next` only where `count` is 0 or the update was made too: the bytes that it writes are nowhere else.
 * Refuses by 8, 1, 2, 4, as the update does; `next` is then the state that was handed in. */
fc_updated fc_encoder_ask(fc_encoder state, const uint8_t *piece, size_t len, uint64_t room);

/* Writes the last byte, where bits pend, with zeros behind them; `count` is 0 or 1. It hands no state back: the caller still holds it.
 * Refuses by 8, 1, 5, 4; 5 tells the state's first non-member and its count. */
fc_packed fc_encoder_finalize(fc_encoder state, uint8_t *out, size_t room);

/* The bytes that the packing of so many symbols takes, symbols * bits / 8 rounded up. It is exact for every number of symbols, also above the 2^60 at which
 * the library refuses, where `bits` is at most 8; above that, which no alphabet has, it is UINT64_MAX, more than any memory has room for. */
static inline uint64_t fc_packed_length(uint64_t symbols, uint64_t bits) {
    return bits > 8 ? UINT64_MAX : symbols / 8 * bits + (symbols % 8 * bits + 7) / 8;
}

/* The whole packing of a text, folded unless `fold` is 0: fc_packed_length(len, bits per symbol) bytes. Refuses by 8, 2, 4, 5; on a refusal nothing is
 * written, and 5 tells of all non-members of the text. */
fc_packed fc_encode_sequence(uint64_t alphabet, uint64_t fold, const uint8_t *text, size_t len, uint8_t *out, size_t room);

/* The bytes of a packed file that hold the bases from `start` to `end`, not including `end`; the same formula where start exceeds end. Refuses by 9, 2. */
fc_range fc_byte_range_for_bases(uint64_t start, uint64_t end, uint64_t bits);

/* Reads of a window: the bases from `start` to `end`, not including `end`, of a packed file of which `bytes` are the bytes from `byte_offset` on, at the
 * front of `out`. A window whose end is at most its start is empty, and is answered before any question. Every byte that is not lent reads as zero, so a
 * short fetch reads on as code zero (a run of T in Dna2bit): compare what was fetched with what was asked for, or use fc_decode_covered.
 * They refuse by 8, 2, 4, the covered read by 8, 2, 3, 4, 18; `count` is end - start. */
fc_count fc_decode_substring_from_bytes_at_offset(uint64_t alphabet, const uint8_t *bytes, size_t len, uint64_t byte_offset, uint64_t start, uint64_t end,
                                                  uint8_t *out, size_t room);

/* The same with byte_offset 0. */
fc_count fc_decode_substring_from_bytes(uint64_t alphabet, const uint8_t *bytes, size_t len, uint64_t start, uint64_t end, uint8_t *out, size_t room);

/* The same with byte_offset and start 0: the first seq_len bases. */
fc_count fc_decode_string_from_bytes(uint64_t alphabet, const uint8_t *bytes, size_t len, uint64_t seq_len, uint8_t *out, size_t room);

/* The covered read: the same bases, refused by 3 where a byte of the window's range is not lent, and at last by 18 where a base of the window has a code that is
 * no symbol's. `value` is then the first such base, counted from 0 at the sequence's start, not at the window's. Only the window's own bases are asked about: codes
 * before and behind it, in the same bytes too, refuse nothing. */
fc_covered fc_decode_covered(uint64_t alphabet, const uint8_t *bytes, size_t len, uint64_t byte_offset, uint64_t start, uint64_t end, uint8_t *out, size_t room);

/* The engines behind the zero-filling reads, with the same answers: for any alphabet, for Dna2bit, for Dna3bit, for DnaIupac (two bases from one byte), for
 * Protein (eight from five). The last four take no alphabet's number, and refuse by 2, 4. */
fc_count fc_decode_rolling(uint64_t alphabet, const uint8_t *bytes, size_t len, uint64_t byte_offset, uint64_t start, uint64_t end, uint8_t *out, size_t room);
fc_count fc_decode_2bit(const uint8_t *bytes, size_t len, uint64_t byte_offset, uint64_t start, uint64_t end, uint8_t *out, size_t room);
fc_count fc_decode_3bit(const uint8_t *bytes, size_t len, uint64_t byte_offset, uint64_t start, uint64_t end, uint8_t *out, size_t room);
fc_count fc_decode_4bit(const uint8_t *bytes, size_t len, uint64_t byte_offset, uint64_t start, uint64_t end, uint8_t *out, size_t room);
fc_count fc_decode_5bit(const uint8_t *bytes, size_t len, uint64_t byte_offset, uint64_t start, uint64_t end, uint8_t *out, size_t room);

/* A stream that has taken nothing. For the window from `start` to `end` the skip is start * bits per symbol modulo 8, the budget end - start, and the source
 * begins at the first byte of fc_byte_range_for_bases. Refuses by 8, 6. */
fc_stream_started fc_stream_new(uint64_t alphabet, uint64_t skip, uint64_t budget);

/* Takes of `source` just the bytes that it needs, `taken` of them, and writes `written` bases at the front of `out`. Refuses by 8, 1. */
fc_streamed fc_stream_read(fc_stream state, const uint8_t *source, size_t len, uint8_t *out, size_t room);

/* The end of a stream: accepted once the skip is done and every base of the budget is written. It hands no state back: the caller still holds it, and can go
 * on from it where it was refused by 7. Refuses by 8, 1, 7. */
fc_ended fc_stream_end(fc_stream state);

#ifdef __cplusplus
}
#endif

#endif

/*
 * Holds the header's constants, and what it says of refusals, to the library's answers. The expected side is written from the rules. It is built as C and as
 * C++, and prints how many answers were held.
 */
#include <stdio.h>
#include <string.h>

#include "fantailclock.h"

static unsigned held, wrong;

static void hold(const char *what, uint64_t got, uint64_t right) {
    held++;
    if (got == right) return;
    wrong++;
    printf("constants: %s is %llu and should be %llu\n", what, (unsigned long long)got, (unsigned long long)right);
}

static const uint8_t *of(const char *text) { return (const uint8_t *)text; }

static const struct {
    uint64_t number, bits;
    const char *name, *symbols, *stranger;
} alphabets[] = {
    {FC_DNA2BIT, 2, "dna2bit", "TCAG", "N"},
    {FC_DNA3BIT, 3, "dna3bit", "ACGTNRYU", "S"},
    {FC_DNA_IUPAC, 4, "dnaio", "NACMGRSKTWYUBDHV", "X"},
    {FC_PROTEIN, 5, "protein", "ACDEFGHIKLMNPQRSTVWY*X-.UBZOJ", "{"},
    {FC_ASCII, 8, "ASCII", "aA\n", ""},
    {FC_UNKNOWN, 8, "Unknown", "aA\n", ""},
};

static void hold_alphabets(void) {
    for (size_t i = 0; i < sizeof alphabets / sizeof *alphabets; i++) {
        uint8_t name[8] = {0}, out[32];
        uint64_t number = alphabets[i].number;
        fc_count named = fc_display_name(number, name, sizeof name);
        hold(alphabets[i].name, named.count == strlen(alphabets[i].name) && !memcmp(name, alphabets[i].name, named.count), 1);
        hold("bits", fc_bits_per_symbol(number).value, alphabets[i].bits);
        for (uint64_t fold = 0; fold <= 1; fold++) {
            fc_packed packed = fc_encode_sequence(number, fold, of(alphabets[i].symbols), strlen(alphabets[i].symbols), out, sizeof out);
            hold("symbols", packed.refusal, FC_ACCEPTED);
            packed = fc_encode_sequence(number, fold, of(alphabets[i].stranger), strlen(alphabets[i].stranger), out, sizeof out);
            hold("a stranger", packed.refusal, *alphabets[i].stranger ? FC_REFUSED_NOT_MEMBER : FC_ACCEPTED);
        }
    }
    hold("beyond the last alphabet", fc_bits_per_symbol(FC_UNKNOWN + 1).refusal, FC_REFUSED_NO_ALPHABET);
}

/* Each refusal once, with all that its answer holds. */
static void hold_refusals(void) {
    uint8_t out[8], packed[1] = {0x9C}, damaged[2] = {0x07, 0x40}; /* of Protein codes 0 and 29 */
    fc_guesser guesser = {15, 0};
    fc_encoder state = fc_encoder_new(FC_DNA2BIT, 0).next;
    fc_packed text = fc_encode_sequence(FC_DNA2BIT, 0, of("ACNT"), 4, out, sizeof out);
    fc_range range = fc_byte_range_for_bases(0, 1, 9);
    fc_ended ended = fc_stream_end(fc_stream_new(FC_DNA3BIT, 6, 4).next);
    fc_covered read = fc_decode_covered(FC_PROTEIN, damaged, 2, 0, 0, 2, out, sizeof out);

    hold("all accepted", fc_encode_sequence(FC_DNA2BIT, 0, of("ACGT"), 4, out, sizeof out).refusal, FC_ACCEPTED);
    hold("has_bad 0", fc_encoder_update(state, of("A"), 1, out, sizeof out).refusal, FC_ACCEPTED);
    state.has_bad = 2;
    hold("has_bad 2, update", fc_encoder_update(state, of("A"), 1, out, sizeof out).refusal, FC_REFUSED_UNSOUND);
    hold("has_bad 2, finalize", fc_encoder_finalize(state, out, sizeof out).refusal, FC_REFUSED_UNSOUND);
    state.alphabet = 6;
    hold("an alphabet's number before it", fc_encoder_finalize(state, out, sizeof out).refusal, FC_REFUSED_NO_ALPHABET);
    hold("a mask of 15", fc_guesser_guess(guesser).refusal, FC_REFUSED_UNSOUND);
    hold("2^60", fc_byte_range_for_bases(0, (uint64_t)1 << 60, 2).refusal, FC_ACCEPTED);
    hold("2^60 + 1", fc_byte_range_for_bases(0, ((uint64_t)1 << 60) + 1, 2).refusal, FC_REFUSED_TOO_FAR);
    hold("a short fetch", fc_decode_covered(FC_DNA2BIT, packed, 1, 0, 0, 6, out, sizeof out).refusal, FC_REFUSED_UNCOVERED);
    hold("short memory", fc_decode_covered(FC_DNA2BIT, packed, 1, 0, 0, 4, out, 3).refusal, FC_REFUSED_SHORT_MEMORY);
    hold("N in Dna2bit", text.refusal, FC_REFUSED_NOT_MEMBER);
    hold("count with 5", text.count, 0);
    hold("position with 5", text.position, 2);
    hold("byte with 5", text.byte, 'N');
    hold("bad_count with 5", text.bad_count, 1);
    hold("skip 7", fc_stream_new(FC_DNA2BIT, 7, 1).refusal, FC_ACCEPTED);
    hold("skip 8", fc_stream_new(FC_DNA2BIT, 8, 1).refusal, FC_REFUSED_BAD_SKIP);
    hold("an early end", ended.refusal, FC_REFUSED_OUTSTANDING);
    hold("outstanding with 7", ended.outstanding, 4);
    hold("9 bits", range.refusal, FC_REFUSED_TOO_WIDE);
    hold("start with 9", range.start, 0);
    hold("end with 9", range.end, 0);
    hold("code 29 in Protein", read.refusal, FC_REFUSED_NO_SYMBOL);
    hold("count with 18", read.count, 0);
    hold("value with 18", read.value, 1);
}

/* A covered read of `lent` bytes that holds all of its answer, and every byte of the memory: the bases at its front, or nothing where it is refused. */
static void hold_read(const char *what, uint64_t alphabet, const char *bytes, size_t lent, const uint64_t place[3], size_t room, fc_covered right,
                      const char *bases) {
    uint8_t out[8], after[8];
    memset(out, 0xA5, sizeof out);
    memset(after, 0xA5, sizeof after);
    memcpy(after, bases, (size_t)right.count);
    fc_covered read = fc_decode_covered(alphabet, of(bytes), lent, place[0], place[1], place[2], out, room);
    hold(what, read.refusal, right.refusal);
    hold(what, read.count, right.count);
    hold(what, read.value, right.value);
    hold(what, !memcmp(out, after, sizeof out), 1);
}

/* What the header says of codes without a symbol: which they are, which base is told, which question comes before, and that the other reads show X. */
static void hold_codes(void) {
    static const struct {
        const char *what;
        uint64_t alphabet;
        const char *bytes;
        size_t lent;
        uint64_t place[3]; /* byte offset, start, end */
        size_t room;
        fc_covered right;
        const char *bases;
    } reads[] = {
        {"18 with the first base", FC_PROTEIN, "\xE8", 1, {0, 0, 1}, 1, {FC_REFUSED_NO_SYMBOL, 0, 0}, ""},
        {"18 with a later one", FC_PROTEIN, "\x07\x40", 2, {0, 0, 2}, 8, {FC_REFUSED_NO_SYMBOL, 0, 1}, ""},
        {"18 with the first of two", FC_PROTEIN, "\xE8\x3C", 2, {0, 0, 3}, 8, {FC_REFUSED_NO_SYMBOL, 0, 0}, ""},
        {"18, from the sequence's start", FC_PROTEIN, "\xE8", 1, {5, 8, 9}, 8, {FC_REFUSED_NO_SYMBOL, 0, 8}, ""},
        {"18, behind the window", FC_PROTEIN, "\x07\x40", 2, {0, 0, 1}, 8, {FC_ACCEPTED, 1, 0}, "A"},
        {"18, on both sides of it", FC_PROTEIN, "\xE8\x3C", 2, {0, 1, 2}, 8, {FC_ACCEPTED, 1, 0}, "A"},
        {"X itself", FC_PROTEIN, "\xA8", 1, {0, 0, 1}, 8, {FC_ACCEPTED, 1, 0}, "X"},
        {"4 before 18", FC_PROTEIN, "\xE8", 1, {0, 0, 1}, 0, {FC_REFUSED_SHORT_MEMORY, 0, 0}, ""},
        {"3 before 18", FC_PROTEIN, "\xE8", 1, {0, 0, 2}, 8, {FC_REFUSED_UNCOVERED, 0, 0}, ""},
        {"2 before 18", FC_PROTEIN, "\xE8", 1, {((uint64_t)1 << 60) + 1, 0, 1}, 8, {FC_REFUSED_TOO_FAR, 0, 0}, ""},
        {"8 before 18", FC_UNKNOWN + 1, "\xE8", 1, {0, 0, 1}, 8, {FC_REFUSED_NO_ALPHABET, 0, 0}, ""},
        {"an empty window before 18", FC_PROTEIN, "\xE8", 1, {0, 1, 1}, 8, {FC_ACCEPTED, 0, 0}, ""},
        {"an empty window before 8", UINT64_MAX, "\xE8", 1, {UINT64_MAX, UINT64_MAX, 0}, 8, {FC_ACCEPTED, 0, 0}, ""},
        {"ones in Dna2bit", FC_DNA2BIT, "\xFF", 1, {0, 0, 4}, 8, {FC_ACCEPTED, 4, 0}, "GGGG"},
        {"ones in Dna3bit", FC_DNA3BIT, "\xFF\xFF\xFF", 3, {0, 0, 8}, 8, {FC_ACCEPTED, 8, 0}, "UUUUUUUU"},
        {"ones in DnaIupac", FC_DNA_IUPAC, "\xFF", 1, {0, 0, 2}, 8, {FC_ACCEPTED, 2, 0}, "VV"},
        {"1D to 1F in Ascii", FC_ASCII, "\x1D\x1E\x1F", 3, {0, 0, 3}, 8, {FC_ACCEPTED, 3, 0}, "\x1D\x1E\x1F"},
        {"FF in Unknown", FC_UNKNOWN, "\xFF", 1, {0, 0, 1}, 8, {FC_ACCEPTED, 1, 0}, "\xFF"},
    };
    const char *symbols = alphabets[FC_PROTEIN].symbols;
    for (size_t i = 0; i < sizeof reads / sizeof *reads; i++)
        hold_read(reads[i].what, reads[i].alphabet, reads[i].bytes, reads[i].lent, reads[i].place, reads[i].room, reads[i].right, reads[i].bases);
    for (unsigned code = 0; code < 32; code++) {
        uint8_t byte = (uint8_t)(code << 3), out[1];
        int known = code < strlen(symbols);
        fc_covered read = fc_decode_covered(FC_PROTEIN, &byte, 1, 0, 0, 1, out, 1);
        hold("a code of Protein", read.refusal, known ? FC_ACCEPTED : FC_REFUSED_NO_SYMBOL);
        if (known) hold("its symbol", out[0], (uint8_t)symbols[code]);
        hold("the same by another read", fc_decode_string_from_bytes(FC_PROTEIN, &byte, 1, 1, out, 1).refusal, FC_ACCEPTED);
        hold("and its symbol", out[0], known ? (uint8_t)symbols[code] : 'X');
        hold("the same by an engine", fc_decode_rolling(FC_PROTEIN, &byte, 1, 0, 0, 1, out, 1).refusal, FC_ACCEPTED);
        hold("and its symbol", out[0], known ? (uint8_t)symbols[code] : 'X');
        out[0] = 0;
        hold("the same by Protein's own engine", fc_decode_5bit(&byte, 1, 0, 0, 1, out, 1).refusal, FC_ACCEPTED);
        hold("and its symbol", out[0], known ? (uint8_t)symbols[code] : 'X');
        hold("the same by a stream", fc_stream_read(fc_stream_new(FC_PROTEIN, 0, 1).next, &byte, 1, out, 1).written, 1);
        hold("and its symbol", out[0], known ? (uint8_t)symbols[code] : 'X');
    }
}

/* The engines of one alphabet. */
static const struct {
    const char *name;
    uint64_t alphabet;
    fc_count (*read)(const uint8_t *bytes, size_t len, uint64_t byte_offset, uint64_t start, uint64_t end, uint8_t *out, size_t room);
} engines[] = {
    {"fc_decode_2bit", FC_DNA2BIT, fc_decode_2bit},
    {"fc_decode_3bit", FC_DNA3BIT, fc_decode_3bit},
    {"fc_decode_4bit", FC_DNA_IUPAC, fc_decode_4bit},
    {"fc_decode_5bit", FC_PROTEIN, fc_decode_5bit},
};

/* The bytes of a packed file from `offset` on, `len` of them; all others read as zeros. */
typedef struct { const uint8_t *at; size_t len; uint64_t offset; } lent;

/* A base by its bits, X for a code that no symbol has. */
static uint8_t base_at(uint64_t alphabet, lent bytes, uint64_t base) {
    uint64_t bits = alphabets[alphabet].bits, code = 0;
    for (uint64_t bit = base * bits; bit < (base + 1) * bits; bit++) {
        uint64_t at = bit / 8 - bytes.offset; /* of a byte before the first a huge number, and none that is lent */
        code = code << 1 | (at < bytes.len ? bytes.at[at] >> (7 - bit % 8) & 1 : 0);
    }
    return (uint8_t)(code < strlen(alphabets[alphabet].symbols) ? alphabets[alphabet].symbols[code] : 'X');
}

/* A window by an engine and by the one for any alphabet: an empty one is asked nothing, then come 2 and 4; all memory is as it should be. */
static void hold_window(size_t engine, lent bytes, uint64_t start, uint64_t end, size_t room) {
    uint8_t out[2][32], after[32];
    uint64_t far = (uint64_t)1 << 60, alphabet = engines[engine].alphabet, refusal = FC_ACCEPTED, count = start < end ? end - start : 0;
    if (count && (end > far || bytes.offset > far)) refusal = FC_REFUSED_TOO_FAR;
    else if (count > room) refusal = FC_REFUSED_SHORT_MEMORY;
    if (refusal) count = 0;
    memset(out, 0xA5, sizeof out);
    memset(after, 0xA5, sizeof after);
    for (uint64_t i = 0; i < count; i++) after[i] = base_at(alphabet, bytes, start + i);
    fc_count read[2] = {engines[engine].read(bytes.at, bytes.len, bytes.offset, start, end, out[0], room),
                        fc_decode_rolling(alphabet, bytes.at, bytes.len, bytes.offset, start, end, out[1], room)};
    for (int i = 0; i < 2; i++) {
        const char *name = i ? "fc_decode_rolling" : engines[engine].name;
        hold(name, read[i].refusal, refusal);
        hold(name, read[i].count, count);
        hold(name, !memcmp(out[i], after, sizeof after), 1);
    }
}

/* What the header says of the engines: windows up to base 18, which in Protein are two blocks of five bytes and two bases more, lent every run of ten bytes, into
 * memory that is a byte short, just enough or a byte more; and numbers around their limits. */
static void hold_engines(void) {
    static const uint8_t file[10] = {0xE8, 0x3C, 0xFF, 0x1B, 0x39, 0x77, 0x05, 0xD2, 0x9C, 0x61};
    const uint64_t far = (uint64_t)1 << 60, numbers[] = {0, 1, 9, ((uint64_t)1 << 32) + 1, far - 8, far, far + 1, (uint64_t)1 << 63, UINT64_MAX};
    const size_t count = sizeof numbers / sizeof *numbers;
    for (size_t engine = 0; engine < sizeof engines / sizeof *engines; engine++) {
        for (size_t from = 0; from <= sizeof file; from++)
            for (size_t to = from; to <= sizeof file; to++) {
                lent bytes = {file + from, to - from, from};
                for (uint64_t start = 0; start <= 18; start++)
                    for (uint64_t end = start; end <= 18; end++)
                        for (uint64_t room = end - (start < end); room <= end + 1; room++) hold_window(engine, bytes, start, end, (size_t)(room - start));
            }
        for (size_t i = 0; i < count * count * count; i++) {
            lent bytes = {file, sizeof file, numbers[i % count]};
            hold_window(engine, bytes, numbers[i / count % count], numbers[i / count / count], 0);
            hold_window(engine, bytes, numbers[i / count % count], numbers[i / count / count], 9);
        }
    }
}

/* What the header says of `bad_count`: in the answers of the calls that pack, over pieces, after a refused piece, and in a state with the three numbers that
 * belong to it. */
static void hold_bad_count(void) {
    static const struct { uint64_t has_bad, position, byte, count, refusal; } states[] = {
        {0, 0, 0, 0, FC_ACCEPTED},
        {0, 9, 'A', 0, FC_ACCEPTED},
        {0, 0, 0, 1, FC_REFUSED_UNSOUND},
        {0, 4, 'N', 1, FC_REFUSED_UNSOUND},
        {0, 0, 0, (uint64_t)1 << 32, FC_REFUSED_UNSOUND},
        {1, 4, 'N', 0, FC_REFUSED_UNSOUND},
        {1, 4, 'N', 1, FC_REFUSED_NOT_MEMBER},
        {1, 4, 'N', 4, FC_REFUSED_NOT_MEMBER},
        {1, 4, 'N', 5, FC_REFUSED_UNSOUND},
        {1, 4, 'N', ((uint64_t)1 << 32) + 4, FC_REFUSED_UNSOUND},
        {1, 4, 'A', 4, FC_REFUSED_UNSOUND},
        {1, 0, 'N', 8, FC_REFUSED_NOT_MEMBER},
        {1, 7, 'N', 1, FC_REFUSED_NOT_MEMBER},
        {1, 7, 'N', 2, FC_REFUSED_UNSOUND},
        {1, 8, 'N', 1, FC_REFUSED_UNSOUND},
        {1, 9, 'N', UINT64_MAX, FC_REFUSED_UNSOUND},
        {2, 4, 'N', 0, FC_REFUSED_UNSOUND},
        {2, 4, 'N', 4, FC_REFUSED_UNSOUND},
        {UINT64_MAX, UINT64_MAX, UINT64_MAX, UINT64_MAX, FC_REFUSED_UNSOUND},
    };
    uint8_t out[8];
    for (size_t i = 0; i < sizeof states / sizeof *states; i++) {
        fc_encoder state = {FC_DNA2BIT, 8, 0, 0, states[i].has_bad, states[i].position, states[i].byte, 0, states[i].count};
        int told = states[i].refusal == FC_REFUSED_NOT_MEMBER;
        fc_packed last = fc_encoder_finalize(state, out, sizeof out);
        hold("a state's count, finalize", last.refusal, states[i].refusal);
        hold("its position", last.position, told ? states[i].position : 0);
        hold("its byte", last.byte, told ? states[i].byte : 0);
        hold("its count", last.bad_count, told ? states[i].count : 0);
        fc_updated step = fc_encoder_update(state, of("NATN"), 4, out, sizeof out);
        hold("a state's count, update", step.refusal, states[i].refusal == FC_REFUSED_UNSOUND ? FC_REFUSED_UNSOUND : FC_ACCEPTED);
        hold("the next count", step.next.bad_count, states[i].count + (step.refusal ? 0 : 2));
    }
    fc_encoder state = fc_encoder_new(FC_DNA2BIT, 1).next;
    hold("no count at the start", state.bad_count, 0);
    state = fc_encoder_update(state, of("acgtac"), 6, out, sizeof out).next;
    hold("no count of folded members", state.bad_count, 0);
    state = fc_encoder_update(state, of("gnnt"), 4, out, sizeof out).next;
    hold("two in a piece", state.bad_count, 2);
    fc_updated step = fc_encoder_update(state, of("NNNNNNNN"), 8, out, 1);
    hold("short memory", step.refusal, FC_REFUSED_SHORT_MEMORY);
    hold("a refused piece is not counted", step.next.bad_count, 2);
    state = fc_encoder_update(state, of("aNc{t"), 5, out, sizeof out).next;
    fc_packed last = fc_encoder_finalize(state, out, 0);
    hold("four in all, refusal", last.refusal, FC_REFUSED_NOT_MEMBER);
    hold("four in all, position", last.position, 7);
    hold("four in all, byte", last.byte, 'n');
    hold("four in all", last.bad_count, 4);
    hold("all of a whole text", fc_encode_sequence(FC_DNA2BIT, 1, of("acgtacgnntaNc{t"), 15, out, sizeof out).bad_count, 4);
    hold("all of it unfolded", fc_encode_sequence(FC_DNA2BIT, 0, of("acgtacgnntaNc{t"), 15, out, sizeof out).bad_count, 15);
    hold("none with 0", fc_encode_sequence(FC_DNA2BIT, 0, of("ACGT"), 4, out, sizeof out).bad_count, 0);
    hold("none with 4", fc_encode_sequence(FC_DNA2BIT, 0, of("NNNN"), 4, out, 0).bad_count, 0);
    hold("none with 8", fc_encode_sequence(FC_UNKNOWN + 1, 0, of("NNNN"), 4, out, sizeof out).bad_count, 0);
    hold("none in Ascii", fc_encode_sequence(FC_ASCII, 0, of("NNNN"), 4, out, sizeof out).bad_count, 0);
    hold("a refused start", fc_encoder_new(FC_UNKNOWN + 1, 7).next.bad_count, 0);
}

/* An answer to a piece, number by number. */
static void hold_updated(const char *what, fc_updated got, fc_updated right) {
    hold(what, got.refusal, right.refusal);
    hold(what, got.count, right.count);
    hold(what, got.next.alphabet, right.next.alphabet);
    hold(what, got.next.seen, right.next.seen);
    hold(what, got.next.pending_bits, right.next.pending_bits);
    hold(what, got.next.pending, right.next.pending);
    hold(what, got.next.has_bad, right.next.has_bad);
    hold(what, got.next.bad_position, right.next.bad_position);
    hold(what, got.next.bad_byte, right.next.bad_byte);
    hold(what, got.next.fold, right.next.fold);
    hold(what, got.next.bad_count, right.next.bad_count);
}

/* A piece asked about with some room, and packed with memory of that length, or with all of a page where there is no such memory: one answer, which is returned.
 * The piece stays as it is; of the page only what the update counts changes. */
static fc_updated hold_asked(const char *what, fc_encoder state, const uint8_t *piece, size_t len, uint64_t room, fc_updated right) {
    static uint8_t page[64], before[64];
    size_t lent = room < sizeof page ? (size_t)room : sizeof page;
    memcpy(before, piece, len);
    memset(page, 0xA5, sizeof page);
    fc_updated asked = fc_encoder_ask(state, piece, len, room);
    hold_updated(what, asked, right);
    hold(what, !memcmp(before, piece, len), 1);
    memset(before, 0xA5, sizeof before);
    hold(what, !memcmp(before, page, sizeof page), 1);
    hold_updated(what, fc_encoder_update(state, piece, len, page, lent), right);
    hold(what, !memcmp(before + right.count, page + right.count, sizeof page - (size_t)right.count), 1);
    return asked;
}

static fc_updated refused_by(uint64_t refusal, fc_encoder state) {
    fc_updated answer = {refusal, 0, state};
    return answer;
}

/* What the header says of fc_encoder_ask: pieces behind pieces, with all that the next state has, by rooms around the count and huge ones. */
static void hold_pieces(void) {
    static const struct {
        uint64_t alphabet, fold;
        const char *before, *piece;
        uint64_t count, pending_bits, pending, bad_position, bad_byte, bad_count;
    } pieces[] = {
        {FC_DNA2BIT, 0, "", "", 0, 0, 0, 0, 0, 0},
        {FC_DNA2BIT, 0, "", "ACG", 0, 6, 39, 0, 0, 0},
        {FC_DNA2BIT, 0, "ACG", "", 0, 6, 39, 0, 0, 0},
        {FC_DNA2BIT, 0, "ACG", "T", 1, 0, 0, 0, 0, 0},
        {FC_DNA2BIT, 0, "A", "CGTACGTA", 2, 2, 2, 0, 0, 0},
        {FC_DNA2BIT, 0, "AN", "NNxAC", 1, 6, 57, 1, 'N', 4},
        {FC_DNA2BIT, 0, "", "acg", 0, 6, 63, 0, 'a', 3},
        {FC_DNA2BIT, 1, "", "acg", 0, 6, 39, 0, 0, 0},
        {FC_DNA2BIT, 1, "ac", "gnt", 1, 2, 0, 3, 'n', 1},
        {FC_DNA3BIT, 0, "AC", "GTN", 1, 7, 28, 0, 0, 0},
        {FC_DNA3BIT, 0, "", "ACGTNRYU", 3, 0, 0, 0, 0, 0},
        {FC_DNA3BIT, 1, "acgtn", "S", 1, 2, 3, 5, 'S', 1},
        {FC_DNA_IUPAC, 0, "N", "AC", 1, 4, 2, 0, 0, 0},
        {FC_DNA_IUPAC, 1, "n", "x", 1, 0, 0, 1, 'x', 1},
        {FC_PROTEIN, 0, "", "MK*", 1, 7, 20, 0, 0, 0},
        {FC_PROTEIN, 1, "m", "{k", 1, 7, 104, 1, '{', 1},
        {FC_ASCII, 0, "", "az{", 3, 0, 0, 0, 0, 0},
        {FC_ASCII, 1, "az", "Q", 1, 0, 0, 0, 0, 0},
        {FC_UNKNOWN, 1, "{", "}~", 2, 0, 0, 0, 0, 0},
    };
    for (size_t i = 0; i < sizeof pieces / sizeof *pieces; i++) {
        uint8_t out[8];
        const char *before = pieces[i].before, *piece = pieces[i].piece;
        size_t len = strlen(piece);
        uint64_t count = pieces[i].count;
        const uint64_t rooms[] = {0, count - 1, count, count + 1, (uint64_t)1 << 32, ((uint64_t)1 << 60) - 1, (uint64_t)1 << 60, UINT64_MAX};
        fc_encoder state = fc_encoder_update(fc_encoder_new(pieces[i].alphabet, pieces[i].fold).next, of(before), strlen(before), out, sizeof out).next;
        fc_updated right = {FC_ACCEPTED, count, {pieces[i].alphabet, strlen(before) + len, pieces[i].pending_bits, pieces[i].pending, pieces[i].bad_count > 0,
                                                 pieces[i].bad_position, pieces[i].bad_byte, pieces[i].fold, pieces[i].bad_count}};
        for (size_t j = 0; j < sizeof rooms / sizeof *rooms; j++) /* where the count is 0, the one before it is UINT64_MAX */
            hold_asked("a piece asked about", state, of(piece), len, rooms[j], rooms[j] < count ? refused_by(FC_REFUSED_SHORT_MEMORY, state) : right);
    }
}

/* The same for every length of piece behind every length of text, by every room up to the count and one more: whether it is refused, and the count, by the header's
 * formula; that it is the update's answer, by the update. Of three bytes one is no member, but in Ascii and Unknown. */
static void hold_every_room(void) {
    for (size_t i = 0; i < sizeof alphabets / sizeof *alphabets; i++)
        for (uint64_t fold = 0; fold <= 1; fold++) {
            uint8_t text[32], out[32];
            for (size_t at = 0; at < sizeof text; at++) text[at] = (uint8_t)(at % 3 ? alphabets[i].symbols[at % strlen(alphabets[i].symbols)] : '{');
            for (size_t before = 0; before < 8; before++) {
                fc_encoder state = fc_encoder_update(fc_encoder_new(alphabets[i].number, fold).next, text, before, out, sizeof out).next;
                for (size_t len = 0; before + len <= sizeof text; len++) {
                    uint64_t count = (state.pending_bits + len * alphabets[i].bits) / 8;
                    fc_updated made = fc_encoder_update(state, text + before, len, out, sizeof out);
                    hold("the header's formula", made.count, count);
                    for (uint64_t room = 0; room <= count + 1; room++)
                        hold_asked("by every room", state, text + before, len, room, room < count ? refused_by(FC_REFUSED_SHORT_MEMORY, state) : made);
                    hold_asked("by 2^60", state, text + before, len, (uint64_t)1 << 60, made);
                    hold_asked("by UINT64_MAX", state, text + before, len, UINT64_MAX, made);
                }
            }
        }
}

/* The refusals of fc_encoder_ask in their order, by a state with everything wrong that is put right number by number; a state at the last symbol; what the update
 * and the end do after what was asked. */
static void hold_asking(void) {
    const uint64_t far = (uint64_t)1 << 60, rooms[] = {0, 1, far, UINT64_MAX};
    uint8_t page[2];
    for (size_t i = 0; i < sizeof rooms / sizeof *rooms; i++) {
        fc_encoder state = {FC_UNKNOWN + 1, far, 0, 0, 2, 0, 0, 0, 0};
        hold_asked("8 before 1, 2 and 4", state, of("ACGT"), 4, rooms[i], refused_by(FC_REFUSED_NO_ALPHABET, state));
        hold_asked("8 without a piece", state, of(""), 0, rooms[i], refused_by(FC_REFUSED_NO_ALPHABET, state));
        state.alphabet = FC_DNA2BIT;
        hold_asked("1 before 2 and 4", state, of("ACGT"), 4, rooms[i], refused_by(FC_REFUSED_UNSOUND, state));
        hold_asked("1 without a piece", state, of(""), 0, rooms[i], refused_by(FC_REFUSED_UNSOUND, state));
        state.has_bad = 0;
        hold_asked("2 before 4", state, of("ACGT"), 4, rooms[i], refused_by(FC_REFUSED_TOO_FAR, state));
        fc_updated right = {FC_ACCEPTED, 0, state};
        hold_asked("at 2^60 without a piece", state, of(""), 0, rooms[i], right);
        right.count = 1;
        state.seen = far - 4;
        hold_asked("up to 2^60", state, of("ACGT"), 4, rooms[i], rooms[i] == 0 ? refused_by(FC_REFUSED_SHORT_MEMORY, state) : right);
        state.bad_position = 9, state.bad_byte = 'A'; /* ignored where has_bad is 0: zeros come back, and on a refusal what was handed in */
        hold_asked("what is ignored", state, of("ACGT"), 4, rooms[i], rooms[i] == 0 ? refused_by(FC_REFUSED_SHORT_MEMORY, state) : right);
    }
    fc_encoder state = fc_encoder_new(FC_DNA2BIT, 0).next;
    fc_updated asked = fc_encoder_ask(state, of("ACNTACGTN"), 9, UINT64_MAX);
    hold("never 5", asked.refusal, FC_ACCEPTED);
    hold("the non-members in the next state", asked.next.bad_count, 2);
    hold("the bytes that the update uses", asked.count, sizeof page);
    hold("a byte fewer", fc_encoder_update(state, of("ACNTACGTN"), 9, page, sizeof page - 1).refusal, FC_REFUSED_SHORT_MEMORY);
    hold_updated("just as many", fc_encoder_update(state, of("ACNTACGTN"), 9, page, sizeof page), asked);
    hold("the first of them", page[0], 0x9C);
    hold("the second of them", page[1], 0x9C);
    hold("5 at the end", fc_encoder_finalize(asked.next, page, sizeof page).refusal, FC_REFUSED_NOT_MEMBER);
    hold_pieces();
    hold_every_room();
}

/* What the header says of `fold`: as an argument, in a state, in the answers. */
static void hold_folding(void) {
    const uint64_t folding[] = {1, 2, 256, (uint64_t)1 << 32, UINT64_MAX};
    uint8_t out[8];
    hold("0, a guesser", fc_guesser_new(0).fold, 0);
    hold("0, an encoder", fc_encoder_new(FC_DNA2BIT, 0).next.fold, 0);
    hold("0, acgt", fc_guess_alphabet(0, of("acgt"), 4).value, FC_ASCII);
    hold("0, acgt in Dna2bit", fc_encode_sequence(FC_DNA2BIT, 0, of("acgt"), 4, out, sizeof out).refusal, FC_REFUSED_NOT_MEMBER);
    for (size_t i = 0; i < sizeof folding / sizeof *folding; i++) {
        hold("folding, a guesser", fc_guesser_new(folding[i]).fold, 1);
        hold("folding, an encoder", fc_encoder_new(FC_DNA2BIT, folding[i]).next.fold, 1);
        hold("folding, an encoder of Ascii", fc_encoder_new(FC_ASCII, folding[i]).next.fold, 1);
        hold("folding, acgt", fc_guess_alphabet(folding[i], of("acgt"), 4).value, FC_DNA2BIT);
        hold("folding, acgt in Dna2bit", fc_encode_sequence(FC_DNA2BIT, folding[i], of("acgt"), 4, out, sizeof out).refusal, FC_ACCEPTED);
        hold("folding, its byte", out[0], 0x9C);
        hold("a refused start, its choice", fc_encoder_new(FC_UNKNOWN + 1, folding[i]).next.fold, folding[i]);
        hold("folding, a in Ascii", fc_encode_sequence(FC_ASCII, folding[i], of("a"), 1, out, sizeof out).refusal, FC_ACCEPTED);
        hold("folding, a in Ascii, its byte", out[0], 'a');
    }
    fc_guesser guesser = {31, 2};
    hold("fold 2, a guesser", fc_guesser_guess(guesser).refusal, FC_REFUSED_UNSOUND);
    hold("fold 2, a guesser's update", fc_guesser_update(guesser, of("A"), 1).refusal, FC_REFUSED_UNSOUND);
    fc_encoder state = fc_encoder_new(FC_DNA2BIT, 1).next;
    fc_updated step = fc_encoder_update(state, of("acnt"), 4, out, sizeof out);
    fc_packed last = fc_encoder_finalize(step.next, out, sizeof out);
    hold("acnt, its choice", step.next.fold, 1);
    hold("acnt, refusal", last.refusal, FC_REFUSED_NOT_MEMBER);
    hold("acnt, position", last.position, 2);
    hold("acnt, the byte as received", last.byte, 'n');
    state.fold = 2;
    hold("fold 2, an encoder", fc_encoder_update(state, of("A"), 1, out, sizeof out).refusal, FC_REFUSED_UNSOUND);
    state.alphabet = FC_UNKNOWN + 1;
    hold("an alphabet's number before it", fc_encoder_finalize(state, out, sizeof out).refusal, FC_REFUSED_NO_ALPHABET);
    hold("fc_contains does not fold", fc_contains(FC_DNA2BIT, 'a').value, 0);
}

/* What the header says of fc_later_alphabet: every two alphabets, by a table written by hand, and numbers that are no alphabet's in either place. */
static void hold_later(void) {
    static const uint64_t later[6][6] = {{0, 1, 2, 3, 4, 5}, {1, 1, 2, 3, 4, 5}, {2, 2, 2, 3, 4, 5}, {3, 3, 3, 3, 4, 5}, {4, 4, 4, 4, 4, 5}, {5, 5, 5, 5, 5, 5}};
    const uint64_t none[] = {6, 7, 8, 255, 256, 260, (uint64_t)1 << 32, ((uint64_t)1 << 32) + 5, (uint64_t)1 << 63, UINT64_MAX - 5, UINT64_MAX};
    size_t forged = sizeof none / sizeof *none;
    for (uint64_t one = 0; one <= 6; one++)
        for (uint64_t other = 0; other <= 6; other++) {
            int known = one <= FC_UNKNOWN && other <= FC_UNKNOWN;
            fc_number answer = fc_later_alphabet(one, other);
            hold("the later, refusal", answer.refusal, known ? FC_ACCEPTED : FC_REFUSED_NO_ALPHABET);
            hold("the later", answer.value, known ? later[one][other] : 0);
        }
    for (size_t i = 0; i < forged; i++) {
        for (uint64_t alphabet = 0; alphabet <= FC_UNKNOWN; alphabet++) {
            fc_number first = fc_later_alphabet(none[i], alphabet), second = fc_later_alphabet(alphabet, none[i]);
            hold("no alphabet before one", first.refusal, FC_REFUSED_NO_ALPHABET);
            hold("its value", first.value, 0);
            hold("no alphabet behind one", second.refusal, FC_REFUSED_NO_ALPHABET);
            hold("its value", second.value, 0);
        }
        for (size_t j = 0; j < forged; j++) {
            fc_number answer = fc_later_alphabet(none[i], none[j]);
            hold("two that are none", answer.refusal, FC_REFUSED_NO_ALPHABET);
            hold("their value", answer.value, 0);
        }
    }
}

/* A genome's guess, from its chromosomes' guesses. */
static uint64_t genome(uint64_t fold, const char *const *chromosomes, const size_t *lengths, size_t count) {
    uint64_t guess = FC_DNA2BIT;
    for (size_t i = 0; i < count; i++) guess = fc_later_alphabet(guess, fc_guess_alphabet(fold, of(chromosomes[i]), lengths[i]).value).value;
    return guess;
}

/* Texts cut at every two places into chromosomes, in their order and in the opposite one: the genome's guess is the text's, by either choice. */
static void hold_genomes(void) {
    static const struct { const char *text; uint64_t guess, folded; } texts[] = {
        {"", FC_DNA2BIT, FC_DNA2BIT},
        {"ACGTTGCA", FC_DNA2BIT, FC_DNA2BIT},
        {"ACgtTGca", FC_ASCII, FC_DNA2BIT},
        {"ACGTUACGT", FC_DNA3BIT, FC_DNA3BIT},
        {"acgtnACGT", FC_ASCII, FC_DNA3BIT},
        {"NACGUS", FC_DNA_IUPAC, FC_DNA_IUPAC},
        {"TGsACgn", FC_ASCII, FC_DNA_IUPAC},
        {"ACNSX*-.", FC_PROTEIN, FC_PROTEIN},
        {"*acgtnsx", FC_ASCII, FC_PROTEIN},
        {"ACGT\nACGT\n", FC_ASCII, FC_ASCII},
        {"acNs{*EF", FC_ASCII, FC_ASCII},
        {"\x80\xFFMK", FC_ASCII, FC_ASCII},
    };
    for (size_t i = 0; i < sizeof texts / sizeof *texts; i++)
        for (uint64_t fold = 0; fold <= 1; fold++) {
            const char *text = texts[i].text;
            size_t len = strlen(text);
            uint64_t right = fold ? texts[i].folded : texts[i].guess;
            hold("the guess of a text", fc_guess_alphabet(fold, of(text), len).value, right);
            hold("of a genome of one chromosome", genome(fold, &text, &len, 1), right);
            for (size_t first = 0; first <= len; first++)
                for (size_t second = first; second <= len; second++) {
                    const char *chromosomes[] = {text, text + first, text + second}, *turned[] = {text + second, text + first, text};
                    const size_t lengths[] = {first, second - first, len - second}, turned_lengths[] = {len - second, second - first, first};
                    hold("the guess of a genome", genome(fold, chromosomes, lengths, 3), right);
                    hold("the same in the opposite order", genome(fold, turned, turned_lengths, 3), right);
                }
        }
    hold("the guess of no chromosome", genome(0, NULL, NULL, 0), FC_DNA2BIT);
}

static void hold_statuses(void) {
    uint8_t out[4], source[1] = {0x9C};
    fc_stream fresh = fc_stream_new(FC_DNA2BIT, 0, 4).next, unsound = {FC_DNA2BIT, 8, 4, 0, 0};
    hold("no source", fc_stream_read(fresh, source, 0, out, sizeof out).status, FC_HUNGRY);
    hold("the whole budget", fc_stream_read(fresh, source, 1, out, sizeof out).status, FC_DONE);
    hold("short memory", fc_stream_read(fresh, source, 1, out, 3).status, FC_FULL);
    hold("a refused read", fc_stream_read(unsound, source, 1, out, sizeof out).status, 0);
}

static void hold_lengths(void) {
    static uint8_t text[64], out[64];
    const uint64_t far[] = {1000, ((uint64_t)1 << 32) - 1, ((uint64_t)1 << 60) - 3, ((uint64_t)1 << 60) - 1, (uint64_t)1 << 60};
    for (size_t i = 0; i < sizeof alphabets / sizeof *alphabets; i++) {
        memset(text, alphabets[i].symbols[1], sizeof text);
        for (size_t n = 0; n <= sizeof text; n++) {
            fc_packed packed = fc_encode_sequence(alphabets[i].number, n % 2, text, n, out, sizeof out);
            hold("a packed length", fc_packed_length(n, alphabets[i].bits), packed.count);
        }
    }
    for (uint64_t bits = 0; bits <= 8; bits++)
        for (size_t i = 0; i < sizeof far / sizeof *far; i++)
            hold("a long packed length", fc_packed_length(far[i], bits), fc_byte_range_for_bases(0, far[i], bits).end);
    hold("2^64 - 1 symbols of 8 bits", fc_packed_length(UINT64_MAX, 8), UINT64_MAX);
    hold("2^64 - 1 symbols of 5 bits", fc_packed_length(UINT64_MAX, 5), ((uint64_t)5 << 61));
    hold("2^64 - 1 symbols of 1 bit", fc_packed_length(UINT64_MAX, 1), (uint64_t)1 << 61);
    hold("1 symbol of 9 bits", fc_packed_length(1, 9), UINT64_MAX);
    hold("0 symbols of 2^64 - 1 bits", fc_packed_length(0, UINT64_MAX), UINT64_MAX);
}

int main(void) {
    hold("the version", fc_abi_version(), FC_ABI_VERSION);
    hold_alphabets();
    hold_refusals();
    hold_codes();
    hold_engines();
    hold_bad_count();
    hold_asking();
    hold_folding();
    hold_later();
    hold_genomes();
    hold_statuses();
    hold_lengths();
    printf("%u answers held to the header's constants\n", held);
    return wrong ? 1 : 0;
}

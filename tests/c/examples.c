/* The examples of document 01 through the C header, groups and extensions with each of their counts, macroblock rows
 * progressive and not, every bit that a refusal carries, how many bits are missing of numbers and bins, and null pointers with
 * length 0: each line prints what it is, and exit 1 where one differs. */
#include <stdio.h>
#include <string.h>

#include "avsplus.h"

#define HEADER 0x48, 0x40, 0x0F, 0x00, 0x21, 0xC2, 0x4C, 0xC4, 0xE2, 0x08, 0x00, 0x20, 0x02, 0x00, 0x80
#define REST 0, 0, 1, 0xB3, 0x80, 0, 0, 1, 0x00, 0x80, 0, 0, 1, 0xB1
#define DISPLAY 0x22, 0x0F, 0x01, 0x10, 0xE0, 0x80
#define COLOURED 0x23, 0x85, 0x01, 0x00, 0x8F, 0x01, 0x10, 0xE1, 0x80

static const uint8_t stream[33] = {0, 0, 1, 0xB0, HEADER, REST};
static const uint8_t with_display[43] = {0, 0, 1, 0xB0, HEADER, 0, 0, 1, 0xB5, DISPLAY, REST};
static const uint8_t with_colour[46] = {0, 0, 1, 0xB0, HEADER, 0, 0, 1, 0xB5, COLOURED, REST};
static const uint8_t header[15] = {HEADER}, display[6] = {DISPLAY}, coloured[9] = {COLOURED};
static const uint8_t copyright[12] = {0x48, 0x3C, 0x04, 0x04, 0x8D, 0x2A, 0xCF, 0x13, 0x6B, 0xCD, 0xEF, 0x80};
static int differing = 0;

static void expect(const char *what, bool holds) {
    printf("%s %s\n", holds ? "ok  " : "DIFF", what);
    differing += !holds;
}

/* An answer without a bit. */
static bool is(avsplus_answer a, uint32_t status, size_t offset, size_t count) {
    return a.status == status && a.offset == offset && a.count == count && a.bit == AVSPLUS_NO_BIT;
}

/* A refusal with a bit. */
static bool refused_at(avsplus_answer a, uint32_t status, size_t offset, size_t bit) {
    return a.status == status && a.offset == offset && a.count == 0 && a.bit == bit;
}

static bool all(const uint32_t *words, size_t n, uint32_t value) {
    for (size_t i = 0; i < n; i++) {
        if (words[i] != value) {
            return false;
        }
    }
    return true;
}

/* Files the stream with one byte changed. */
static avsplus_answer file_with(size_t at, uint8_t byte, uint32_t *rows, size_t words) {
    uint8_t changed[sizeof stream];
    memcpy(changed, stream, sizeof stream);
    changed[at] = byte;
    return avsplus_file(changed, sizeof changed, rows, words);
}

static void filing(void) {
    static const uint32_t filed[12] = {176, 0, 15, 179, 19, 1, 0, 24, 1, 177, 29, 0};
    uint32_t rows[13];
    memset(rows, 0xFF, sizeof rows);
    expect("2: FULL with 11 words, which stay", is(avsplus_file(stream, sizeof stream, rows, 11), 12, 0, 0) && all(rows, 13, UINT32_MAX));
    expect("3: UNENDED at 29", is(avsplus_file(stream, 29, rows, 12), 11, 29, 0) && all(rows, 13, UINT32_MAX));
    expect("4: CUT at 29", is(avsplus_file(stream, 32, rows, 12), 2, 29, 0));
    expect("5: NO CODE", is(avsplus_file(NULL, 0, rows, 12), 1, 0, 0));
    expect("6: STUFFING at 0", is(file_with(18, 0x00, rows, 12), 9, 0, 0));
    expect("7: VALUE of slice row at 24, bit 0", refused_at(file_with(27, 0x44, rows, 12), 32, 24, 0) && all(rows, 13, UINT32_MAX));
    expect("7: 43 is filed", is(file_with(27, 0x43, rows, 12), 0, 0, 4));
    avsplus_answer a = avsplus_file(stream, sizeof stream, rows, 13);
    expect("1: FILED, 4 units", is(a, 0, 0, 4) && memcmp(rows, filed, sizeof filed) == 0 && rows[12] == UINT32_MAX);
    avsplus_part body = avsplus_row_body(stream, sizeof stream, rows, 12, 1);
    expect("the body of row 1", avsplus_row_exists(stream, sizeof stream, rows, 12, 1) && body.offset == 23 && body.length == 1);
    body = avsplus_row_body(stream, sizeof stream, rows, 12, 4);
    expect("no row 4", !avsplus_row_exists(stream, sizeof stream, rows, 12, 4) && body.offset == 0 && body.length == 0);
}

static void checking(void) {
    expect("the header's version is the library's", avsplus_version() == AVSPLUS_VERSION);
    expect("1: checked, 4 units", is(avsplus_check(stream, sizeof stream), 0, 0, 4));
    expect("3: UNENDED at 29, checked", is(avsplus_check(stream, 29), 11, 29, 0));
    expect("5: NO CODE, checked", is(avsplus_check(NULL, 0), 1, 0, 0));
}

#define UNTOUCHED 7777
#define ROOM 24

/* Asks for a group, or for an extension's body in a head or after a picture header, with room for so many numbers. */
typedef avsplus_answer question(const uint8_t *bytes, size_t length, uint64_t *numbers, size_t lent);

static avsplus_answer group(const uint8_t *bytes, size_t length, uint64_t *numbers, size_t lent) {
    return avsplus_group(bytes, length, 0, numbers, lent);
}

static avsplus_answer in_head(const uint8_t *bytes, size_t length, uint64_t *numbers, size_t lent) {
    return avsplus_extension(bytes, length, true, numbers, lent);
}

static avsplus_answer after_picture(const uint8_t *bytes, size_t length, uint64_t *numbers, size_t lent) {
    return avsplus_extension(bytes, length, false, numbers, lent);
}

/* Whether exactly `count` numbers are written and wanted, whatever the room: fewer are FULL and leave all, later ones stay. */
static bool gives(question ask, const uint8_t *bytes, size_t length, size_t count, uint64_t *numbers) {
    for (size_t lent = 0; lent <= ROOM; lent++) {
        for (size_t i = 0; i < ROOM; i++) {
            numbers[i] = UNTOUCHED;
        }
        avsplus_answer a = ask(bytes, length, lent == 0 ? NULL : numbers, lent);
        size_t written = count <= lent ? count : 0;
        if (!(written ? is(a, AVSPLUS_DONE, 0, count) : is(a, AVSPLUS_FULL, 0, 0))) {
            return false;
        }
        for (size_t i = 0; i < ROOM; i++) {
            if ((numbers[i] == UNTOUCHED) != (written <= i)) {
                return false;
            }
        }
    }
    return true;
}

static bool is_header(const uint64_t *n) {
    return n[AVSPLUS_HEADER_HORIZONTAL_SIZE] == 1920 && n[AVSPLUS_HEADER_VERTICAL_SIZE] == 1080 && n[AVSPLUS_HEADER_BIT_RATE] == 20000 &&
           n[AVSPLUS_HEADER_MACROBLOCK_COLUMNS] == 120 && n[AVSPLUS_HEADER_MACROBLOCK_ROWS] == 68;
}

static void groups(void) {
    uint64_t n[ROOM];
    expect("a group without a display extension", gives(group, stream, sizeof stream, AVSPLUS_GROUP_PLAIN, n) && is_header(n));
    avsplus_answer a = avsplus_frame_rate((uint32_t)n[AVSPLUS_HEADER_FRAME_RATE_CODE], n, ROOM);
    expect("frame rate 25/1", is(a, 0, 0, 2) && n[AVSPLUS_RATIO_NUMERATOR] == 25 && n[AVSPLUS_RATIO_DENOMINATOR] == 1);
    expect("a group with one", gives(group, with_display, sizeof with_display, AVSPLUS_GROUP_WITH_DISPLAY, n) && is_header(n));
    expect("its display extension", n[AVSPLUS_GROUP_DISPLAY_FORMAT] == 1 && n[AVSPLUS_GROUP_DISPLAY_RANGE] == 0 && n[AVSPLUS_GROUP_DISPLAY_WIDTH] == 1920 &&
                                        n[AVSPLUS_GROUP_DISPLAY_HEIGHT] == 1080 && n[AVSPLUS_GROUP_DISPLAY_STEREO] == 0);
    expect("a group with its colour", gives(group, with_colour, sizeof with_colour, AVSPLUS_GROUP_WITH_COLOUR, n) && is_header(n));
    expect("its display extension", n[AVSPLUS_GROUP_DISPLAY_FORMAT] == 1 && n[AVSPLUS_GROUP_DISPLAY_RANGE] == 1 && n[AVSPLUS_GROUP_DISPLAY_WIDTH] == 1920 &&
                                        n[AVSPLUS_GROUP_DISPLAY_HEIGHT] == 1080 && n[AVSPLUS_GROUP_DISPLAY_STEREO] == 1);
    expect("its colour", n[AVSPLUS_GROUP_COLOUR_PRIMARIES] == 10 && n[AVSPLUS_GROUP_COLOUR_TRANSFER] == 2 && n[AVSPLUS_GROUP_COLOUR_MATRIX] == 1);
    expect("NO ROW for group 1, whatever the room", is(avsplus_group(stream, sizeof stream, 1, n, ROOM), 16, 0, 0) && is(avsplus_group(stream, sizeof stream, 1, NULL, 0), 16, 0, 0));
    expect("a refused stream's group", is(avsplus_group(stream, 29, 0, NULL, 0), 11, 29, 0));
}

/* The stream with 496 lines, progressive or not, and its slice in this row. */
static void of_496_lines(uint8_t out[sizeof stream], bool progressive, uint8_t row) {
    memcpy(out, stream, sizeof stream);
    out[6] |= progressive ? 0x80 : 0;
    out[8] = 496 >> 5;
    out[9] = (496 & 31) << 3 | (stream[9] & 7);
    out[27] = row;
}

static void macroblock_rows(void) {
    uint8_t changed[sizeof stream];
    uint64_t n[ROOM];
    of_496_lines(changed, false, 31);
    expect("32 rows of 496 lines", is(avsplus_group(changed, sizeof changed, 0, n, ROOM), 0, 0, 14) && n[AVSPLUS_HEADER_VERTICAL_SIZE] == 496 &&
                                       n[AVSPLUS_HEADER_PROGRESSIVE] == 0 && n[AVSPLUS_HEADER_MACROBLOCK_ROWS] == 32);
    expect("its slice 31 is filed", is(avsplus_check(changed, sizeof changed), 0, 0, 4));
    of_496_lines(changed, false, 32);
    expect("its slice 32 is VALUE of slice row", refused_at(avsplus_check(changed, sizeof changed), 32, 24, 0));
    of_496_lines(changed, true, 30);
    expect("31 rows where progressive is 1", is(avsplus_group(changed, sizeof changed, 0, n, ROOM), 0, 0, 14) && n[AVSPLUS_HEADER_VERTICAL_SIZE] == 496 &&
                                                 n[AVSPLUS_HEADER_PROGRESSIVE] == 1 && n[AVSPLUS_HEADER_MACROBLOCK_ROWS] == 31);
    of_496_lines(changed, true, 31);
    expect("its slice 31 is VALUE of slice row", refused_at(avsplus_check(changed, sizeof changed), 32, 24, 0));
}

/* A good body, and the byte of it that is changed to this, so that it is refused with the status at the bit. */
typedef struct {
    const char *what;
    const uint8_t *body;
    size_t length;
    size_t byte;
    uint8_t changed;
    uint32_t status;
    size_t bit;
} fault;

/* 16 by 16, so that one byte makes a size 0; and a copyright extension of nobody, with no number. */
static const uint8_t small[15] = {0x48, 0x40, 0x00, 0x20, 0x00, 0x82, 0x4C, 0xC4, 0xE2, 0x08, 0x00, 0x20, 0x02, 0x00, 0x80};
static const uint8_t unowned[12] = {0x48, 0x04, 0x04, 0x00, 0x00, 0x20, 0x00, 0x00, 0x40, 0x00, 0x00, 0x80};

static const fault faults[] = {
    {"VALUE of width", small, 15, 3, 0x00, AVSPLUS_VALUE_WIDTH, 17},
    {"VALUE of height", small, 15, 5, 0x02, AVSPLUS_VALUE_HEIGHT, 31},
    {"VALUE of chroma", header, 15, 5, 0xC6, AVSPLUS_VALUE_CHROMA, 45},
    {"VALUE of precision", header, 15, 6, 0x0C, AVSPLUS_VALUE_PRECISION, 47},
    {"VALUE of aspect", header, 15, 6, 0x40, AVSPLUS_VALUE_ASPECT, 50},
    {"VALUE of rate", header, 15, 7, 0x04, AVSPLUS_VALUE_RATE, 54},
    {"MARKER of a header, the first", header, 15, 9, 0x00, AVSPLUS_MARKER, 76},
    {"MARKER of a header, the second", header, 15, 11, 0x00, AVSPLUS_MARKER, 90},
    {"MARKER of a display extension", display, 6, 2, 0x00, AVSPLUS_MARKER, 23},
    {"VALUE of stereo", display, 6, 4, 0xE3, AVSPLUS_VALUE_STEREO, 38},
    {"VALUE of transfer", coloured, 9, 2, 0x00, AVSPLUS_VALUE_TRANSFER, 17},
    {"VALUE of matrix", coloured, 9, 4, 0x0F, AVSPLUS_VALUE_MATRIX, 25},
    {"MARKER with colour", coloured, 9, 5, 0x00, AVSPLUS_MARKER, 47},
    {"VALUE of stereo with colour", coloured, 9, 7, 0xE3, AVSPLUS_VALUE_STEREO, 62},
    {"MARKER of a copyright extension, the first", copyright, 12, 2, 0x00, AVSPLUS_MARKER, 21},
    {"MARKER of a copyright extension, the second", copyright, 12, 5, 0x0A, AVSPLUS_MARKER, 42},
    {"MARKER of a copyright extension, the third", copyright, 12, 8, 0x2B, AVSPLUS_MARKER, 65},
    {"VALUE of copyright owner", copyright, 12, 0, 0x40, AVSPLUS_VALUE_COPYRIGHT_OWNER, 5},
    {"VALUE of copyright number", unowned, 12, 10, 0x01, AVSPLUS_VALUE_COPYRIGHT_NUMBER, 22},
};

/* A sequence header is known by its length. */
static avsplus_answer read_body(const uint8_t *body, size_t length, uint64_t *n) {
    return length == sizeof header ? avsplus_sequence_header(body, length, n, ROOM) : avsplus_extension(body, length, true, n, ROOM);
}

/* The stream with this sequence header, or with this extension after its own; answers its length, and where the body's unit is. */
static size_t stream_with(uint8_t *out, const uint8_t *body, size_t length, size_t *offset) {
    static const uint8_t rest[] = {REST};
    *offset = length == sizeof header ? 0 : 19;
    memcpy(out, stream, 19);
    memcpy(out + *offset, (const uint8_t[]){0, 0, 1, *offset == 0 ? 0xB0 : 0xB5}, 4);
    memcpy(out + *offset + 4, body, length);
    memcpy(out + *offset + 4 + length, rest, sizeof rest);
    return *offset + 4 + length + sizeof rest;
}

/* Of a body alone the number and the bit, of a stream that holds it the offset too; each body is good before it is changed. */
static void refused_bits(void) {
    for (const fault *f = faults; f < faults + sizeof faults / sizeof *faults; f++) {
        uint8_t body[15], whole[64];
        uint64_t n[ROOM];
        size_t offset;
        memcpy(body, f->body, f->length);
        bool good = read_body(body, f->length, n).status == AVSPLUS_DONE;
        body[f->byte] = f->changed;
        size_t length = stream_with(whole, body, f->length, &offset);
        expect(f->what, good && refused_at(read_body(body, f->length, n), f->status, 0, f->bit) &&
                            refused_at(avsplus_check(whole, length), f->status, offset, f->bit) &&
                            refused_at(avsplus_group(whole, length, 0, n, ROOM), f->status, offset, f->bit));
    }
    static const uint8_t slice_5_twice[] = {0, 0, 1, 0xB0, HEADER, 0, 0, 1, 0xB3, 0x80, 0, 0, 1, 5, 0x80, 0, 0, 1, 5, 0x80};
    expect("VALUE of slice order", refused_at(avsplus_check(slice_5_twice, sizeof slice_5_twice), AVSPLUS_VALUE_SLICE_ORDER, 29, 0));
}

static void extensions(void) {
    static const uint8_t opaque[2] = {0xB5, 0x00};
    uint64_t n[ROOM];
    expect("a display extension", gives(in_head, display, 6, AVSPLUS_EXTENSION_DISPLAY, n) && n[AVSPLUS_EXTENSION_NUMBER] == 2);
    expect("its numbers", n[AVSPLUS_EXTENSION_DISPLAY_FORMAT] == 1 && n[AVSPLUS_EXTENSION_DISPLAY_RANGE] == 0 && n[AVSPLUS_EXTENSION_DISPLAY_WIDTH] == 1920 &&
                              n[AVSPLUS_EXTENSION_DISPLAY_HEIGHT] == 1080 && n[AVSPLUS_EXTENSION_DISPLAY_STEREO] == 0);
    expect("one with its colour", gives(in_head, coloured, 9, AVSPLUS_EXTENSION_WITH_COLOUR, n) && n[AVSPLUS_EXTENSION_NUMBER] == 2);
    expect("its numbers", n[AVSPLUS_EXTENSION_COLOUR_PRIMARIES] == 10 && n[AVSPLUS_EXTENSION_COLOUR_TRANSFER] == 2 && n[AVSPLUS_EXTENSION_COLOUR_MATRIX] == 1);
    expect("after a picture header both are opaque", gives(after_picture, display, 6, AVSPLUS_EXTENSION_OPAQUE, n) &&
                                                         gives(after_picture, coloured, 9, AVSPLUS_EXTENSION_OPAQUE, n) && n[AVSPLUS_EXTENSION_NUMBER] == 2);
    expect("an opaque extension", gives(in_head, opaque, 2, AVSPLUS_EXTENSION_OPAQUE, n) && n[AVSPLUS_EXTENSION_NUMBER] == 11);
    expect("a copyright extension", gives(in_head, copyright, 12, AVSPLUS_EXTENSION_COPYRIGHT, n) && gives(after_picture, copyright, 12, AVSPLUS_EXTENSION_COPYRIGHT, n));
    expect("its numbers", n[AVSPLUS_EXTENSION_NUMBER] == 4 && n[AVSPLUS_EXTENSION_COPYRIGHT_FLAG] == 1 && n[AVSPLUS_EXTENSION_COPYRIGHT_OWNER] == 7 &&
                              n[AVSPLUS_EXTENSION_COPYRIGHT_ORIGINAL] == 1 && n[AVSPLUS_EXTENSION_COPYRIGHT_NUMBER] == 0x0123456789ABCDEF);
    expect("a short one, whatever the room", is(avsplus_extension(copyright, 11, true, n, ROOM), 6, 0, 0) && is(avsplus_extension(copyright, 11, true, NULL, 0), 6, 0, 0));
}

static void payloads(void) {
    static const uint8_t raw[4] = {0x00, 0x00, 0x02, 0xC0}, removed[5] = {0x00, 0x00, 0x03, 0x00, 0xFF};
    uint8_t output[5] = {0xFF, 0xFF, 0xFF, 0xFF, 0xFF};
    avsplus_answer a = avsplus_remove_escapes(raw, 4, output, 5);
    expect("8: 30 bits, 00 00 03 00", is(a, 0, 0, 30) && memcmp(output, removed, 5) == 0);
    static const uint8_t bits[3] = {0x80, 0x40, 0x60};
    avsplus_golomb n = avsplus_unsigned_golomb(bits, 1, 1, 0);
    expect("9: bit 1 is 0", n.status == 0 && n.missing == 0 && n.number == 0 && n.place == 1);
    avsplus_signed_number s = avsplus_signed_golomb(bits + 1, 1, 3, 0);
    expect("9: bits 010 are 1", s.status == 0 && s.missing == 0 && s.number == 1 && s.place == 3);
    s = avsplus_signed_golomb(bits + 2, 1, 3, 0);
    expect("9: bits 011 are -1", s.status == 0 && s.missing == 0 && s.number == -1 && s.place == 3);
}

/* A payload, so many bits of these bytes, and how a number is refused at a place of it: the status, and the bits missing. */
typedef struct {
    const char *what;
    const uint8_t *bytes;
    size_t length;
    size_t bits;
    size_t place;
    uint32_t status;
    uint32_t missing;
} cut_number;

static const uint8_t zeros[5] = {0}, three[1] = {0x20}, seven[1] = {0x10}, greatest[4] = {0, 0, 0, 1};
static const uint8_t too_long[AVSPLUS_LONGEST_PAYLOAD + 1] = {0};

static const cut_number cut_numbers[] = {
    {"no number of no bits: 1 missing", NULL, 0, 0, 0, 14, 1},
    {"none at the end: 1 missing", seven, 1, 8, 8, 14, 1},
    {"none past the end, which counts as the end: 1 missing", seven, 1, 8, SIZE_MAX, 14, 1},
    {"zeros and no 1: 1 missing", zeros, 5, 31, 0, 14, 1},
    {"001 and 1 bit of 2: 1 missing", three, 1, 4, 0, 14, 1},
    {"001 and no bit of 2: 2 missing", three, 1, 3, 0, 14, 2},
    {"0001 and no bit of 3: 3 missing", seven, 1, 4, 0, 14, 3},
    {"000001 and 2 bits of 5, all that the byte holds: 3 missing", (const uint8_t[]){0x04}, 1, 999, 0, 14, 3},
    {"31 zeros, a 1 and no bit of 31: 31 missing", greatest, 4, 32, 0, 14, 31},
    {"VALUE of 32 zeros: none missing", zeros, 5, 40, 0, AVSPLUS_VALUE, 0},
    {"VALUE of 32 zeros that the bits end with: none missing", zeros, 5, 32, 0, AVSPLUS_VALUE, 0},
    {"TOO LONG: none missing", too_long, sizeof too_long, 1, 1, AVSPLUS_TOO_LONG, 0},
};

static void missing_of_numbers(void) {
    for (const cut_number *c = cut_numbers; c < cut_numbers + sizeof cut_numbers / sizeof *cut_numbers; c++) {
        avsplus_golomb n = avsplus_unsigned_golomb(c->bytes, c->length, c->bits, c->place);
        avsplus_signed_number s = avsplus_signed_golomb(c->bytes, c->length, c->bits, c->place);
        expect(c->what, n.status == c->status && n.missing == c->missing && n.number == AVSPLUS_NO_NUMBER && n.place == c->place &&
                            s.status == c->status && s.missing == c->missing && s.number == AVSPLUS_NO_SIGNED_NUMBER && s.place == c->place);
    }
    avsplus_golomb n = avsplus_unsigned_golomb(three, 1, 5, 0);
    expect("00100 is 3: none missing", n.status == 0 && n.missing == 0 && n.number == 3 && n.place == 5);
}

static void bins(void) {
    static const uint8_t ten[3] = {0x80, 0x40, 0x00}, eleven[2] = {0x40, 0x00}, twelve[2] = {0x80, 0x00};
    avsplus_state none = {0, 0, 0, 0, 0};
    avsplus_started s = avsplus_start(ten, 3, 24, none);
    avsplus_bin b = avsplus_decode(ten, 3, 24, s.state, avsplus_fresh_context());
    expect("10: bin 1", s.missing == 0 && b.status == 0 && b.missing == 0 && b.bin == 1 && b.state.rs == 0 && b.state.rt == 254 && b.state.vs == 8 && b.state.vt == 0);
    expect("10: what follows", b.state.place == 18 && b.context.mps == 1 && b.context.lg == 827 && b.context.cycno == 1);
    b.state = avsplus_start(eleven, 2, 16, none).state;
    b.context = avsplus_fresh_context();
    uint32_t seen = 0;
    for (int i = 0; i < 3; i++) {
        b = avsplus_decode(eleven, 2, 16, b.state, b.context);
        seen = seen * 10 + b.bin;
    }
    expect("11: bins 0, 0, 1", seen == 1 && b.state.rt == 188 && b.state.vs == 0 && b.state.vt == 28 && b.state.place == 12);
    expect("11: what follows", b.context.lg == 927 && b.context.cycno == 2);
    s = avsplus_start(twelve, 2, 16, none);
    b = avsplus_decode(twelve, 2, 16, s.state, avsplus_fresh_context());
    expect("12: start done, then PAYLOAD OUT, 1 missing", s.status == 0 && s.missing == 0 && b.status == 14 && b.missing == 1 && b.bin == AVSPLUS_NO_BIN &&
                                                             b.state.place == s.state.place);
}

/* Request E9's tables, and a context whose lg a bin takes from one. */
static void tables(void) {
    bool rule = true, none = true;
    for (uint32_t w = 3; w <= 5; w++) {
        for (uint32_t lg = 0; lg <= 1023; lg++) {
            uint32_t entry = avsplus_next_lg(w, lg), next = avsplus_next_lg(w, lg + 1);
            rule = rule && entry == lg - (lg >> w) - (lg >> (w + 2)) && entry <= lg && (lg < 4 || entry >= 4);
            rule = rule && (lg == 1023 || (entry <= next + 1 && next <= entry + 1));
        }
        none = none && avsplus_next_lg(w, 1024) == AVSPLUS_NO_LG && avsplus_next_lg(w, UINT32_MAX) == AVSPLUS_NO_LG;
    }
    expect("tables: every entry", rule);
    expect("tables: no entry past 1023, nor for w 2 and 6", none && avsplus_next_lg(2, 8) == AVSPLUS_NO_LG && avsplus_next_lg(6, 8) == AVSPLUS_NO_LG);
    static const uint8_t bytes[3] = {0x55, 0x55, 0x55};
    avsplus_state state = {0, 200, 9, 0, 9};
    avsplus_context context = {1, 777, 2};
    avsplus_bin b = avsplus_decode(bytes, 3, 24, state, context);
    expect("tables: the lg after a bin that was mps", b.status == 0 && b.bin == 1 && b.context.lg == avsplus_next_lg(4, 777));
}

static void missing_of_start(void) {
    avsplus_state given = {1, 2, 3, 4, 5};
    bool first_nine = true, next = true;
    for (size_t bits = 0; bits <= 40; bits++) {
        avsplus_started s = avsplus_start(zeros, 5, bits, given);
        bool refused = s.status == 14 && memcmp(&s.state, &given, sizeof given) == 0;
        if (bits < 9) {
            first_nine = first_nine && refused && s.missing == 9 - bits;
        } else {
            next = next && refused && s.missing == 1;
        }
    }
    expect("start: of the first nine bits 9 to 1 missing, as many as are not there", first_nine);
    expect("start: of what follows 1 missing", next);
    avsplus_started s = avsplus_start(seven, 1, 999, given);
    expect("start: 8 bits, all that the byte holds: 1 missing", s.status == 14 && s.missing == 1);
    s = avsplus_start(too_long, sizeof too_long, 8, given);
    expect("start: TOO LONG: none missing", s.status == AVSPLUS_TOO_LONG && s.missing == 0);
}

/* Whether each kind of bin is refused with this status and so many bits missing, and leaves state and contexts. */
static bool all_bins_refuse(const uint8_t *bytes, size_t length, avsplus_state state, uint32_t status, uint32_t missing) {
    avsplus_context fresh = avsplus_fresh_context();
    avsplus_bin one = avsplus_decode(bytes, length, 16, state, fresh);
    avsplus_pair_bin two = avsplus_decode_pair(bytes, length, 16, state, fresh, fresh);
    avsplus_plain_bin plain[] = {avsplus_bypass(bytes, length, 16, state), avsplus_stuffing(bytes, length, 16, state)};
    bool holds = one.status == status && one.missing == missing && one.bin == AVSPLUS_NO_BIN && memcmp(&one.context, &fresh, sizeof fresh) == 0 &&
                 two.status == status && two.missing == missing && two.bin == AVSPLUS_NO_BIN && memcmp(&two.first, &fresh, sizeof fresh) == 0 &&
                 memcmp(&two.second, &fresh, sizeof fresh) == 0 && memcmp(&one.state, &state, sizeof state) == 0 && memcmp(&two.state, &state, sizeof state) == 0;
    for (int i = 0; i < 2; i++) {
        holds = holds && plain[i].status == status && plain[i].missing == missing && plain[i].bin == AVSPLUS_NO_BIN && memcmp(&plain[i].state, &state, sizeof state) == 0;
    }
    return holds;
}

static void missing_of_bins(void) {
    /* rT is below every lg / 4, so that a bin wants a bit. */
    avsplus_state at_end = {0, 0, 0, 255, 16}, bad = {0, 256, 0, 255, 16};
    expect("a bin of each kind at the end: 1 missing", all_bins_refuse(zeros, 2, at_end, 14, 1));
    expect("BAD STATE: none missing", all_bins_refuse(zeros, 2, bad, AVSPLUS_BAD_STATE, 0));
    expect("a bin of a payload that is TOO LONG: none missing", all_bins_refuse(too_long, sizeof too_long, at_end, AVSPLUS_TOO_LONG, 0));
    avsplus_state none = {0, 0, 0, 0, 0};
    static const uint8_t good[3] = {0x80, 0x40, 0x00};
    avsplus_state started = avsplus_start(good, 3, 24, none).state;
    avsplus_pair_bin two = avsplus_decode_pair(good, 3, 24, started, avsplus_fresh_context(), avsplus_fresh_context());
    avsplus_plain_bin bypass = avsplus_bypass(good, 3, 24, started), stuffing = avsplus_stuffing(good, 3, 24, started);
    expect("bins that are done: none missing", two.status == 0 && two.missing == 0 && bypass.status == 0 && bypass.missing == 0 &&
                                                   stuffing.status == 0 && stuffing.missing == 0);
}

/* A null pointer with length 0, for what is read and for what is lent to be written. */
static void nothing(void) {
    avsplus_state none = {0, 0, 0, 0, 0};
    expect("null rows: FULL", is(avsplus_file(stream, sizeof stream, NULL, 0), 12, 0, 0));
    expect("null stream and rows: NO CODE", is(avsplus_file(NULL, 0, NULL, 0), 1, 0, 0));
    expect("null rows hold no row", !avsplus_row_exists(stream, sizeof stream, NULL, 0, 0) && avsplus_row_body(NULL, 0, NULL, 0, 0).length == 0);
    expect("null numbers: FULL for a group", is(avsplus_group(stream, sizeof stream, 0, NULL, 0), 12, 0, 0));
    expect("null body and numbers: SHORT", is(avsplus_sequence_header(NULL, 0, NULL, 0), 6, 0, 0) && is(avsplus_extension(NULL, 0, true, NULL, 0), 6, 0, 0));
    expect("null numbers: FULL for a frame rate, and none given", is(avsplus_frame_rate(1, NULL, 0), 12, 0, 0) && is(avsplus_frame_rate(0, NULL, 0), 0, 0, 0));
    expect("null output: FULL, and nothing of nothing", is(avsplus_remove_escapes(stream, 1, NULL, 0), 12, 0, 0) && is(avsplus_remove_escapes(NULL, 0, NULL, 0), 0, 0, 0));
    expect("null payload: PAYLOAD OUT", avsplus_unsigned_golomb(NULL, 0, 8, 0).status == 14 && avsplus_start(NULL, 0, 9, none).status == 14);
    expect("null payload: 1 bit of a number and 9 of the start missing", avsplus_unsigned_golomb(NULL, 0, 8, 0).missing == 1 && avsplus_start(NULL, 0, 9, none).missing == 9);
    expect("null stream: no start code", avsplus_next_start_code(NULL, 0, 0) == 0);
}

int main(void) {
    filing();
    checking();
    groups();
    macroblock_rows();
    refused_bits();
    extensions();
    payloads();
    missing_of_numbers();
    bins();
    tables();
    missing_of_start();
    missing_of_bins();
    nothing();
    return differing != 0;
}

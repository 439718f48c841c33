/* AVS+ (GY/T 257.1) recordings: filing, rows, groups, headers, extensions, payloads and bins.
 *
 * docs/RULES.md of the project, installed as share/doc/avsplus/RULES.md, has the rules: of each status exactly when it is given
 * and what to look at in the recording, the layouts with their bit places, rows, payloads and bins. examples/recording.c is a
 * whole program.
 *
 * No call has a precondition beyond C's own: a pointer lent with a length points to that many elements, and a lent output
 * overlaps nothing else that is lent. A null pointer may be lent with length 0 only. No call allocates, keeps a pointer, or
 * writes past what it says. A refusal leaves all lent memory as it was. Of the stack avsplus_file takes at most 32 KiB, and every
 * other call at most 2 KiB.
 *
 * Numbers are written to lent memory from its start on, and the answer's count says how many; later ones stay. What is not
 * given is not written, needs no room and is never FULL.
 */
#ifndef AVSPLUS_H
#define AVSPLUS_H

#include <stdbool.h>
#include <stddef.h>
#include <stdint.h>

#ifdef __cplusplus
extern "C" {
#endif

/* The number of this interface, raised when it changes: compare it with what avsplus_version answers. */
#define AVSPLUS_VERSION 3u

/* A status: 0, or the number of a refusal: docs/RULES.md, "Refusal numbers". From 20 on each is a field's whose value is ruled
 * out; AVSPLUS_VALUE is an Exp-Golomb number's alone. */
enum {
    AVSPLUS_DONE = 0, /* FILED, for filing */
    AVSPLUS_NO_CODE = 1,
    AVSPLUS_CUT = 2,
    AVSPLUS_OVERLAP = 3,
    AVSPLUS_UNKNOWN = 4,
    AVSPLUS_OUT_OF_PLACE = 5,
    AVSPLUS_SHORT = 6,
    AVSPLUS_MARKER = 7,
    AVSPLUS_VALUE = 8, /* of an Exp-Golomb number */
    AVSPLUS_STUFFING = 9,
    AVSPLUS_TWICE = 10,
    AVSPLUS_UNENDED = 11,
    AVSPLUS_FULL = 12,
    AVSPLUS_TOO_LONG = 13,
    AVSPLUS_PAYLOAD_OUT = 14,
    AVSPLUS_BAD_STATE = 15,
    AVSPLUS_NO_ROW = 16,
    AVSPLUS_VALUE_WIDTH = 20,  /* a sequence header's horizontal size */
    AVSPLUS_VALUE_HEIGHT = 21, /* and its vertical size */
    AVSPLUS_VALUE_CHROMA = 22,
    AVSPLUS_VALUE_PRECISION = 23,
    AVSPLUS_VALUE_ASPECT = 24,
    AVSPLUS_VALUE_RATE = 25,
    AVSPLUS_VALUE_TRANSFER = 26,
    AVSPLUS_VALUE_MATRIX = 27,
    AVSPLUS_VALUE_STEREO = 28,
    AVSPLUS_VALUE_COPYRIGHT_OWNER = 29,
    AVSPLUS_VALUE_COPYRIGHT_NUMBER = 30,
    AVSPLUS_VALUE_SLICE_ORDER = 31,
    AVSPLUS_VALUE_SLICE_ROW = 32
};

/* The most bytes of a stream, and of a payload. */
#define AVSPLUS_LONGEST_STREAM 16777216u
#define AVSPLUS_LONGEST_PAYLOAD 65536u

#define AVSPLUS_NO_BIT SIZE_MAX /* is no bit of a body: no refusal has so great a one */

/* What a call answers. */
typedef struct {
    uint32_t status;
    size_t offset; /* of a refused stream, where in it the refusal stands; 0 where the answer has no offset */
    size_t count;  /* how many units, numbers or bits there are; 0 for a refusal and for what is not given */
    size_t bit;    /* of MARKER and of statuses 20 to 32, which bit of the body, counted from 0: the marker, the field's first
                    * bit, or 0 for a slice, which is refused for its code byte; AVSPLUS_NO_BIT for every other status */
} avsplus_answer;

/* A part of a stream. */
typedef struct {
    size_t offset;
    size_t length;
} avsplus_part;

/* The number of the library's interface: it is AVSPLUS_VERSION where this header is the library's. */
uint32_t avsplus_version(void);

/* ── what is handed over ── */

/* A row of filing: the index of each word in it, and how many words a row has. Row i begins at rows[AVSPLUS_ROW_WORDS * i]. */
enum {
    AVSPLUS_ROW_CODE = 0,
    AVSPLUS_ROW_OFFSET = 1, /* of the start code */
    AVSPLUS_ROW_LENGTH = 2, /* of the body */
    AVSPLUS_ROW_WORDS = 3
};

/* A sequence header, by avsplus_sequence_header and avsplus_group: the index of each number, and how many there are. */
enum {
    AVSPLUS_HEADER_PROFILE = 0,
    AVSPLUS_HEADER_LEVEL = 1,
    AVSPLUS_HEADER_PROGRESSIVE = 2,
    AVSPLUS_HEADER_HORIZONTAL_SIZE = 3,
    AVSPLUS_HEADER_VERTICAL_SIZE = 4,
    AVSPLUS_HEADER_CHROMA_FORMAT = 5,
    AVSPLUS_HEADER_PRECISION = 6,
    AVSPLUS_HEADER_ASPECT = 7,          /* for avsplus_display_ratio */
    AVSPLUS_HEADER_FRAME_RATE_CODE = 8, /* for avsplus_frame_rate */
    AVSPLUS_HEADER_BIT_RATE = 9,
    AVSPLUS_HEADER_LOW_DELAY = 10,
    AVSPLUS_HEADER_BUFFER_SIZE = 11,
    AVSPLUS_HEADER_MACROBLOCK_COLUMNS = 12, /* (horizontal size + 15) / 16, whole division */
    AVSPLUS_HEADER_MACROBLOCK_ROWS = 13, /* 2 * ((vertical size + 31) / 32) if progressive is 0, else (vertical size + 15) / 16 */
    AVSPLUS_HEADER_NUMBERS = 14
};

/* A group, by avsplus_group: its sequence header at the indices above, then its display extension, then that one's colour. */
enum {
    AVSPLUS_GROUP_DISPLAY_FORMAT = 14,
    AVSPLUS_GROUP_DISPLAY_RANGE = 15,
    AVSPLUS_GROUP_DISPLAY_WIDTH = 16,
    AVSPLUS_GROUP_DISPLAY_HEIGHT = 17,
    AVSPLUS_GROUP_DISPLAY_STEREO = 18,
    AVSPLUS_GROUP_COLOUR_PRIMARIES = 19,
    AVSPLUS_GROUP_COLOUR_TRANSFER = 20,
    AVSPLUS_GROUP_COLOUR_MATRIX = 21
};

/* The counts of a group, which say what is given:
 *
 *     uint64_t n[AVSPLUS_GROUP_WITH_COLOUR];
 *     avsplus_answer a = avsplus_group(stream, length, 0, n, AVSPLUS_GROUP_WITH_COLOUR);
 *     if (a.status == AVSPLUS_DONE && a.count >= AVSPLUS_GROUP_WITH_DISPLAY)
 *         width = n[AVSPLUS_GROUP_DISPLAY_WIDTH];
 */
enum {
    AVSPLUS_GROUP_PLAIN = 14,
    AVSPLUS_GROUP_WITH_DISPLAY = 19,
    AVSPLUS_GROUP_WITH_COLOUR = 22 /* the most: with so many lent no group is FULL */
};

/* An extension, by avsplus_extension: its number, then a display extension and its colour, or a copyright extension. */
enum {
    AVSPLUS_EXTENSION_NUMBER = 0,
    AVSPLUS_EXTENSION_DISPLAY_FORMAT = 1,
    AVSPLUS_EXTENSION_DISPLAY_RANGE = 2,
    AVSPLUS_EXTENSION_DISPLAY_WIDTH = 3,
    AVSPLUS_EXTENSION_DISPLAY_HEIGHT = 4,
    AVSPLUS_EXTENSION_DISPLAY_STEREO = 5,
    AVSPLUS_EXTENSION_COLOUR_PRIMARIES = 6,
    AVSPLUS_EXTENSION_COLOUR_TRANSFER = 7,
    AVSPLUS_EXTENSION_COLOUR_MATRIX = 8,
    AVSPLUS_EXTENSION_COPYRIGHT_FLAG = 1,
    AVSPLUS_EXTENSION_COPYRIGHT_OWNER = 2,
    AVSPLUS_EXTENSION_COPYRIGHT_ORIGINAL = 3,
    AVSPLUS_EXTENSION_COPYRIGHT_NUMBER = 4
};

/* The counts of an extension, which say what it is. Its number does not: 2 is a display extension in a group's head only. */
enum {
    AVSPLUS_EXTENSION_OPAQUE = 1,
    AVSPLUS_EXTENSION_COPYRIGHT = 5,
    AVSPLUS_EXTENSION_DISPLAY = 6,
    AVSPLUS_EXTENSION_WITH_COLOUR = 9 /* a display extension too; the most: with so many lent no extension is FULL */
};

/* A ratio, by avsplus_frame_rate and avsplus_display_ratio: the index of each number, and how many there are. */
enum {
    AVSPLUS_RATIO_NUMERATOR = 0,
    AVSPLUS_RATIO_DENOMINATOR = 1,
    AVSPLUS_RATIO_NUMBERS = 2
};

/* ── recordings ── */

/* Checks a stream. Done: count is its units, so that filing it takes AVSPLUS_ROW_WORDS words for each. Refused as filing is,
 * but never with FULL. */
avsplus_answer avsplus_check(const uint8_t *stream, size_t length);

/* Files a stream. Done: count is its units, and rows[0 .. AVSPLUS_ROW_WORDS * count) hold a row for each; later words stay.
 * Refused: the first refusal from the left with its offset, and with its bit where it has one; all words stay. FULL, last of
 * all, where words is less than AVSPLUS_ROW_WORDS times the units. */
avsplus_answer avsplus_file(const uint8_t *stream, size_t length, uint32_t *rows, size_t words);

/* Whether row i exists: rows holds it whole, and its body ends within the stream. Any words will do for rows. */
bool avsplus_row_exists(const uint8_t *stream, size_t length, const uint32_t *rows, size_t words, size_t i);

/* Where the body of row i lies in the stream: offset 0 and length 0 where there is no such row. */
avsplus_part avsplus_row_body(const uint8_t *stream, size_t length, const uint32_t *rows, size_t words, size_t i);

/* Group g of a stream, counted from 0. Done: AVSPLUS_GROUP_PLAIN numbers, AVSPLUS_GROUP_WITH_DISPLAY where it has a display
 * extension, AVSPLUS_GROUP_WITH_COLOUR where that has its colour; later ones stay. Refused as filing refuses the stream, with
 * offset and bit, then with NO ROW where it has no such group, then with FULL where fewer numbers are lent than it has; all
 * stay. Each call checks the whole stream, so that the time to ask for each of many groups grows with the square of their
 * number: file the stream once instead, and read headers and extensions by its rows. */
avsplus_answer avsplus_group(const uint8_t *stream, size_t length, size_t g, uint64_t *numbers, size_t lent);

/* ── bodies ── */

/* A sequence header's body. Done: AVSPLUS_HEADER_NUMBERS numbers, later ones stay. Refused with SHORT, MARKER or one of
 * AVSPLUS_VALUE_WIDTH to AVSPLUS_VALUE_RATE with the bit and no offset, or STUFFING, or with FULL where the body is good and
 * fewer numbers are lent; all stay. */
avsplus_answer avsplus_sequence_header(const uint8_t *body, size_t length, uint64_t *numbers, size_t lent);

/* An extension's body: in_head says whether it stands in a group's head or after a picture header. Done:
 * AVSPLUS_EXTENSION_DISPLAY numbers for a display extension or AVSPLUS_EXTENSION_WITH_COLOUR with its colour,
 * AVSPLUS_EXTENSION_COPYRIGHT for a copyright extension, AVSPLUS_EXTENSION_OPAQUE for any other; later ones stay. Refused with
 * SHORT, MARKER or one of AVSPLUS_VALUE_TRANSFER to AVSPLUS_VALUE_COPYRIGHT_NUMBER with the bit and no offset, or STUFFING, or
 * with FULL where the body is good and fewer numbers are lent than it has; all stay. */
avsplus_answer avsplus_extension(const uint8_t *body, size_t length, bool in_head, uint64_t *numbers, size_t lent);

/* The frame rate of a code: AVSPLUS_RATIO_NUMBERS numbers, later ones stay, or done with count 0 for a code that gives none.
 * Refused with FULL alone; all stay. */
avsplus_answer avsplus_frame_rate(uint32_t code, uint64_t *numbers, size_t lent);

/* The display ratio of an aspect, in the same way: 2 to 4 give one. Aspect 1 gives none, for it says square samples. */
avsplus_answer avsplus_display_ratio(uint32_t aspect, uint64_t *numbers, size_t lent);

/* ── payloads ── */

/* Removes escape bits from a payload. Done: count bits, packed into output, the last byte filled with zeros; later bytes stay.
 * Refused with TOO LONG, then with FULL where room is less than length; all bytes stay. */
avsplus_answer avsplus_remove_escapes(const uint8_t *raw, size_t length, uint8_t *output, size_t room);

#define AVSPLUS_NO_NUMBER UINT32_MAX       /* is no Exp-Golomb number */
#define AVSPLUS_NO_SIGNED_NUMBER INT32_MIN /* is no signed one */

/* Here and below `missing` is 0 unless status is AVSPLUS_PAYLOAD_OUT; then how many more bits were wanted than there are, at
 * least 1: by the one read that failed, which takes none of its bits. What would be read after it is not counted. A place past
 * the payload's end counts as its end. */
typedef struct {
    uint32_t status;
    uint32_t missing; /* 1 to 31 with AVSPLUS_PAYLOAD_OUT, else 0 */
    uint32_t number;  /* AVSPLUS_NO_NUMBER for a refusal */
    size_t place;     /* the place after the number; for a refusal the place that was asked for */
} avsplus_golomb;

typedef struct {
    uint32_t status;
    uint32_t missing; /* 1 to 31 with AVSPLUS_PAYLOAD_OUT, else 0 */
    int32_t number;   /* AVSPLUS_NO_SIGNED_NUMBER for a refusal */
    size_t place;     /* the place after the number; for a refusal the place that was asked for */
} avsplus_signed_number;

/* The Exp-Golomb number at a bit place of a payload. Here and below a payload is the first `bits` bits of bytes, or all where
 * there are fewer. Refused with TOO LONG, then with VALUE or PAYLOAD OUT, whichever the bits meet first. The zeros and the 1
 * are read bit by bit, so that 1 is missing where they are cut; the bits after the 1, as many as the zeros, are one read. */
avsplus_golomb avsplus_unsigned_golomb(const uint8_t *bytes, size_t length, size_t bits, size_t place);

/* The same as a signed number. */
avsplus_signed_number avsplus_signed_golomb(const uint8_t *bytes, size_t length, size_t bits, size_t place);

/* ── bins ── */

typedef struct {
    uint32_t rs;
    uint32_t rt;
    uint32_t vs;
    uint32_t vt;
    size_t place; /* the next bit */
} avsplus_state;

typedef struct {
    uint32_t mps;
    uint32_t lg;
    uint32_t cycno;
} avsplus_context;

#define AVSPLUS_NO_BIN 2u /* is no bin: a bin is 0 or 1 */

typedef struct {
    uint32_t status;
    uint32_t missing;    /* 1 to 9 with AVSPLUS_PAYLOAD_OUT, else 0 */
    avsplus_state state; /* for a refusal the state that was given */
} avsplus_started;

/* State and contexts are those after the bin; for a refusal those that were given, and bin is AVSPLUS_NO_BIN. missing is 1 with
 * AVSPLUS_PAYLOAD_OUT, else 0: a bin's bits are read one by one. */
typedef struct {
    uint32_t status;
    uint32_t missing;
    uint32_t bin;
    avsplus_state state;
} avsplus_plain_bin;

typedef struct {
    uint32_t status;
    uint32_t missing;
    uint32_t bin;
    avsplus_state state;
    avsplus_context context;
} avsplus_bin;

typedef struct {
    uint32_t status;
    uint32_t missing;
    uint32_t bin;
    avsplus_state state;
    avsplus_context first;
    avsplus_context second;
} avsplus_pair_bin;

/* A fresh context. */
avsplus_context avsplus_fresh_context(void);

/* Starts on a payload. Refused with TOO LONG or PAYLOAD OUT; the state that was given comes back then. The first nine bits are
 * one read: missing is 9 less the bits of a payload that has fewer. Later ones are read bit by bit, so that 1 is missing. */
avsplus_started avsplus_start(const uint8_t *bytes, size_t length, size_t bits, avsplus_state state);

/* A bin by one context, with the state and the context after it. Refused, as all bins are, with TOO LONG, then with BAD STATE
 * where a state or a context is outside its ranges, then with PAYLOAD OUT. */
avsplus_bin avsplus_decode(const uint8_t *bytes, size_t length, size_t bits, avsplus_state state, avsplus_context context);

/* A bin by two contexts, with the state and both contexts after it. */
avsplus_pair_bin avsplus_decode_pair(const uint8_t *bytes, size_t length, size_t bits, avsplus_state state,
                                     avsplus_context first, avsplus_context second);

/* A bypass bin, with the state after it. */
avsplus_plain_bin avsplus_bypass(const uint8_t *bytes, size_t length, size_t bits, avsplus_state state);

/* A stuffing bin, with the state after it. */
avsplus_plain_bin avsplus_stuffing(const uint8_t *bytes, size_t length, size_t bits, avsplus_state state);

#define AVSPLUS_NO_LG UINT32_MAX /* is no lg of a context */

/* The entry of a table of context steps: the lg of a context after a bin that was its mps, at the rate w. w is 3, 4 or 5 and goes
 * by the context's cycno before the bin: 3 for 0 or 1, 4 for 2, 5 for 3. AVSPLUS_NO_LG for any other w, and for an lg over 1023,
 * where the tables end. The bins' functions read the same tables. */
uint32_t avsplus_next_lg(uint32_t w, uint32_t lg);

/* ── start codes ── */

/* The first offset from `from` on where 00 00 01 stands, or the stream's length. */
size_t avsplus_next_start_code(const uint8_t *stream, size_t length, size_t from);

/* The kinds of unit. */
enum {
    AVSPLUS_SLICE = 0,
    AVSPLUS_SEQUENCE_HEADER = 1,
    AVSPLUS_SEQUENCE_END = 2,
    AVSPLUS_USER_DATA = 3,
    AVSPLUS_I_PICTURE = 4,
    AVSPLUS_EXTENSION_UNIT = 5,
    AVSPLUS_PB_PICTURE = 6,
    AVSPLUS_EDIT_CODE = 7,
    AVSPLUS_NO_KIND = 8 /* the code is UNKNOWN */
};

/* The kind of a unit by its code byte. */
uint32_t avsplus_kind(uint8_t code);

#ifdef __cplusplus
}
#endif

#endif

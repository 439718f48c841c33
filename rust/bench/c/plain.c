/* Plain C rivals of the library: the same algorithms, and other ones where a name says so. */
#define _GNU_SOURCE /* memmem, and clock_gettime */
#include <stdbool.h>
#include <stddef.h>
#include <stdint.h>
#include <string.h>
#include <time.h>

enum {
    DONE = 0,
    NO_CODE = 1,
    CUT = 2,
    OVERLAP = 3,
    UNKNOWN = 4,
    OUT_OF_PLACE = 5,
    SHORT = 6,
    MARKER = 7,
    STUFFING = 9,
    TWICE = 10,
    UNENDED = 11,
    FULL = 12,
    TOO_LONG = 13,
    PAYLOAD_OUT = 14,
    BAD_STATE = 15,
    VALUE_WIDTH = 20,
    VALUE_HEIGHT = 21,
    VALUE_CHROMA = 22,
    VALUE_PRECISION = 23,
    VALUE_ASPECT = 24,
    VALUE_RATE = 25,
    VALUE_TRANSFER = 26,
    VALUE_MATRIX = 27,
    VALUE_STEREO = 28,
    VALUE_COPYRIGHT_OWNER = 29,
    VALUE_COPYRIGHT_NUMBER = 30,
    VALUE_SLICE_ORDER = 31,
    VALUE_SLICE_ROW = 32
};

#define LONGEST_STREAM 16777216u
#define LONGEST_PAYLOAD 65536u
#define NO_BIT SIZE_MAX

typedef struct {
    uint32_t status;
    size_t offset;
    size_t count;
    size_t bit; /* of a body, where a marker or a field is refused; else NO_BIT */
} answer;

/* ── time ── */

/* The thread's own time: what other programs take of the machine is not in it. */
uint64_t plain_nanoseconds(void)
{
    struct timespec now;
    clock_gettime(CLOCK_THREAD_CPUTIME_ID, &now);
    return (uint64_t)now.tv_sec * 1000000000u + (uint64_t)now.tv_nsec;
}

/* ── bits ── */

/* The bit at a place, or -1 where there is none. */
static inline int read_bit(const uint8_t *bytes, size_t length, size_t count, size_t place)
{
    if (count <= place)
        return -1;
    size_t at = place / 8;
    if (length <= at)
        return -1;
    return bytes[at] >> (7 - place % 8) & 1;
}

/* All bits of a read, or none of them and how many are missing. */
static bool read_bits(const uint8_t *bytes, size_t length, size_t count, size_t place, uint32_t width, uint32_t *value,
                      uint32_t *missing)
{
    uint32_t v = 0;
    for (uint32_t k = 0; k < width; k++) {
        int bit = read_bit(bytes, length, count, place + k);
        if (bit < 0) {
            *missing = width - k;
            return false;
        }
        v = v * 2 + (uint32_t)bit;
    }
    *value = v;
    return true;
}

/* ── start codes ── */

static inline bool prefix_at(const uint8_t *stream, size_t n, size_t at)
{
    if (n < 3 || n - 3 < at)
        return false;
    return stream[at] == 0 && stream[at + 1] == 0 && stream[at + 2] == 1;
}

/* Looks at the third byte of a prefix: one over 1 rules out three places, a 0 one place. */
static inline size_t next_by_three(const uint8_t *stream, size_t n, size_t from)
{
    if (n < 3 || n - 3 < from)
        return n;
    size_t at = from + 2;
    while (at < n) {
        if (stream[at] > 1)
            at += 3;
        else if (stream[at] == 0)
            at += 1;
        else if (stream[at - 1] == 0 && stream[at - 2] == 0)
            return at - 2;
        else
            at += 3;
    }
    return n;
}

/* Place after place, without a step over any. */
static inline size_t next_bytewise(const uint8_t *stream, size_t n, size_t from)
{
    if (n < 3)
        return n;
    for (size_t at = from; at <= n - 3; at++)
        if (stream[at] == 0 && stream[at + 1] == 0 && stream[at + 2] == 1)
            return at;
    return n;
}

size_t plain_next_by_three(const uint8_t *stream, size_t length, size_t from)
{
    return next_by_three(stream, length, from);
}

size_t plain_next_bytewise(const uint8_t *stream, size_t length, size_t from)
{
    return next_bytewise(stream, length, from);
}

/* The C library's own search, for bytes that it is told at each call. */
size_t plain_next_memmem(const uint8_t *stream, size_t length, size_t from)
{
    static const uint8_t prefix[] = {0, 0, 1};
    if (length < sizeof prefix || length - sizeof prefix < from)
        return length;
    const uint8_t *found = memmem(stream + from, length - from, prefix, sizeof prefix);
    return found == NULL ? length : (size_t)(found - stream);
}

/* ── bodies ── */

/* A body's bits from the left: its length is tested before. */
typedef struct {
    const uint8_t *at;
    uint32_t used; /* bits of *at that are taken */
} bit_reader;

static inline uint32_t take(bit_reader *r, uint32_t width)
{
    uint32_t value = 0;
    while (0 < width) {
        uint32_t left = 8 - r->used;
        uint32_t n = width < left ? width : left;
        value = value << n | (*r->at >> (left - n) & ((1u << n) - 1));
        r->used += n;
        width -= n;
        if (r->used == 8) {
            r->at++;
            r->used = 0;
        }
    }
    return value;
}

static bool is_stuffed(const uint8_t *body, size_t length, size_t k)
{
    if (body[k] != 128)
        return false;
    for (size_t i = k + 1; i < length; i++)
        if (body[i] != 0)
            return false;
    return true;
}

/* A refusal for the field or marker that begins at a bit of the body. */
static uint32_t refused(uint32_t status, size_t at, size_t *bit)
{
    *bit = at;
    return status;
}

typedef struct {
    uint32_t profile, level, progressive, horizontal, vertical, chroma, precision, aspect, rate, bitrate, delay, buffer;
} header;

static uint32_t judge_header(const header *h, size_t *bit)
{
    if (h->horizontal == 0)
        return refused(VALUE_WIDTH, 17, bit);
    if (h->vertical == 0)
        return refused(VALUE_HEIGHT, 31, bit);
    if (h->chroma < 1 || 2 < h->chroma)
        return refused(VALUE_CHROMA, 45, bit);
    if (h->precision != 1)
        return refused(VALUE_PRECISION, 47, bit);
    if (h->aspect < 1 || 4 < h->aspect)
        return refused(VALUE_ASPECT, 50, bit);
    if (h->rate < 1 || 8 < h->rate)
        return refused(VALUE_RATE, 54, bit);
    return DONE;
}

/* Writes the bit where a marker or a field is refused, here and below. */
static uint32_t read_header(const uint8_t *body, size_t length, header *h, size_t *bit)
{
    if (length < 15)
        return SHORT;
    bit_reader r = {body, 0};
    h->profile = take(&r, 8);
    h->level = take(&r, 8);
    h->progressive = take(&r, 1);
    h->horizontal = take(&r, 14);
    h->vertical = take(&r, 14);
    h->chroma = take(&r, 2);
    h->precision = take(&r, 3);
    h->aspect = take(&r, 4);
    h->rate = take(&r, 4);
    uint32_t status = judge_header(h, bit);
    if (status != DONE)
        return status;
    h->bitrate = take(&r, 18);
    if (take(&r, 1) == 0)
        return refused(MARKER, 76, bit);
    h->bitrate += take(&r, 12) << 18;
    h->delay = take(&r, 1);
    if (take(&r, 1) == 0)
        return refused(MARKER, 90, bit);
    h->buffer = take(&r, 18);
    return is_stuffed(body, length, 14) ? DONE : STUFFING;
}

typedef struct {
    uint32_t format, range, coloured, primaries, transfer, matrix, width, height, stereo;
} display;

static bool display_short(const uint8_t *body, size_t length)
{
    return length < 6 || (128 <= body[1] && length < 9);
}

static uint32_t read_display(const uint8_t *body, size_t length, display *d, size_t *bit)
{
    if (display_short(body, length))
        return SHORT;
    bit_reader r = {body, 4};
    d->format = take(&r, 3);
    d->range = take(&r, 1);
    d->coloured = take(&r, 1);
    if (d->coloured) {
        d->primaries = take(&r, 8);
        d->transfer = take(&r, 8);
        d->matrix = take(&r, 8);
        if (d->transfer == 0 || d->transfer == 3 || 10 < d->transfer)
            return refused(VALUE_TRANSFER, 17, bit);
        if (d->matrix == 0 || d->matrix == 3 || 7 < d->matrix)
            return refused(VALUE_MATRIX, 25, bit);
    }
    d->width = take(&r, 14);
    if (take(&r, 1) == 0)
        return refused(MARKER, d->coloured ? 47 : 23, bit);
    d->height = take(&r, 14);
    d->stereo = take(&r, 2);
    if (d->stereo == 3)
        return refused(VALUE_STEREO, d->coloured ? 62 : 38, bit);
    return is_stuffed(body, length, d->coloured ? 8 : 5) ? DONE : STUFFING;
}

typedef struct {
    uint32_t flag, owner, original;
    uint64_t number;
} copyright;

static uint32_t read_copyright(const uint8_t *body, size_t length, copyright *c, size_t *bit)
{
    if (length < 12)
        return SHORT;
    bit_reader r = {body, 4};
    c->flag = take(&r, 1);
    c->owner = take(&r, 8);
    c->original = take(&r, 1);
    take(&r, 7);
    if (take(&r, 1) == 0)
        return refused(MARKER, 21, bit);
    c->number = take(&r, 20);
    if (take(&r, 1) == 0)
        return refused(MARKER, 42, bit);
    c->number = c->number << 22 | take(&r, 22);
    if (take(&r, 1) == 0)
        return refused(MARKER, 65, bit);
    c->number = c->number << 22 | take(&r, 22);
    if (c->flag == 0 && c->owner != 0)
        return refused(VALUE_COPYRIGHT_OWNER, 5, bit);
    if (c->owner == 0 && c->number != 0)
        return refused(VALUE_COPYRIGHT_NUMBER, 22, bit);
    return is_stuffed(body, length, 11) ? DONE : STUFFING;
}

typedef enum { OPAQUE, DISPLAY, COPYRIGHT } extension;

/* What a body that is not empty is by its number. */
static extension extension_of(const uint8_t *body, bool in_head)
{
    uint32_t number = body[0] >> 4;
    return number == 4 ? COPYRIGHT : number == 2 && in_head ? DISPLAY : OPAQUE;
}

static uint32_t read_extension(const uint8_t *body, size_t length, bool in_head, size_t *bit)
{
    display d;
    copyright c;
    if (length == 0)
        return SHORT;
    switch (extension_of(body, in_head)) {
    case DISPLAY:
        return read_display(body, length, &d, bit);
    case COPYRIGHT:
        return read_copyright(body, length, &c, bit);
    case OPAQUE:
        return DONE;
    }
    return DONE;
}

/* ── one unit ── */

typedef enum { START, HEAD, PICTURE, SLICES, ENDED, CLOSED } where;

typedef struct {
    where where;
    bool display; /* in a head: a display extension was read */
    bool tested;  /* the slice rule */
    uint32_t rows;
    uint32_t least; /* the least code of the next slice */
} state;

typedef struct {
    uint32_t status;
    state next;
    size_t end;
} unit;

static bool all_zero(const uint8_t *body, size_t length)
{
    for (size_t i = 0; i < length; i++)
        if (body[i] != 0)
            return false;
    return true;
}

static size_t trimmed_length(const uint8_t *body, size_t length)
{
    while (0 < length && body[length - 1] == 0)
        length--;
    return length;
}

static uint32_t header_step(state *s, const uint8_t *body, size_t length, size_t *bit)
{
    header h;
    uint32_t status = read_header(body, length, &h, bit);
    if (status != DONE)
        return status;
    s->where = HEAD;
    s->display = false;
    s->tested = h.vertical <= 2800;
    s->rows = h.progressive ? (h.vertical + 15) / 16 : 2 * ((h.vertical + 31) / 32);
    return DONE;
}

static uint32_t head_extension(state *s, const uint8_t *body, size_t length, size_t *bit)
{
    if (length != 0 && extension_of(body, true) == DISPLAY) {
        if (s->display && !display_short(body, length))
            return TWICE;
        s->display = true;
    }
    return read_extension(body, length, true, bit);
}

static uint32_t picture_step(state *s, const uint8_t *body, size_t length)
{
    if (all_zero(body, length))
        return SHORT;
    s->where = PICTURE;
    return DONE;
}

static uint32_t slice_step(state *s, uint32_t least, uint8_t code, const uint8_t *body, size_t length, size_t *bit)
{
    if (all_zero(body, length))
        return SHORT;
    if (s->tested && code < least)
        return refused(VALUE_SLICE_ORDER, 0, bit);
    if (s->tested && s->rows <= code)
        return refused(VALUE_SLICE_ROW, 0, bit);
    s->where = SLICES;
    s->least = code + 1u;
    return DONE;
}

static uint32_t ending_step(state *s, where next, size_t length)
{
    if (length != 0)
        return STUFFING;
    s->where = next;
    return DONE;
}

static uint32_t in_head(state *s, uint8_t code, const uint8_t *body, size_t length, size_t *bit)
{
    switch (code) {
    case 0xB2:
        return DONE;
    case 0xB5:
        return head_extension(s, body, length, bit);
    case 0xB3:
        return picture_step(s, body, length);
    default:
        return OUT_OF_PLACE;
    }
}

static uint32_t in_picture(state *s, uint8_t code, const uint8_t *body, size_t length, size_t *bit)
{
    if (code < 0xB0)
        return slice_step(s, 0, code, body, length, bit);
    if (code == 0xB2)
        return DONE;
    if (code == 0xB5)
        return read_extension(body, length, false, bit);
    return OUT_OF_PLACE;
}

static uint32_t after_slice(state *s, uint8_t code, const uint8_t *body, size_t length, size_t *bit)
{
    if (code < 0xB0)
        return slice_step(s, s->least, code, body, length, bit);
    switch (code) {
    case 0xB3:
    case 0xB6:
        return picture_step(s, body, length);
    case 0xB0:
        return header_step(s, body, length, bit);
    case 0xB1:
        return ending_step(s, ENDED, length);
    case 0xB7:
        return ending_step(s, CLOSED, length);
    default:
        return OUT_OF_PLACE;
    }
}

static uint32_t step_unit(state *s, uint8_t code, const uint8_t *body, size_t length, size_t *bit)
{
    if (code == 0xB4 || 0xB8 <= code)
        return UNKNOWN;
    switch (s->where) {
    case START:
        return code == 0xB0 ? header_step(s, body, length, bit) : OUT_OF_PLACE;
    case HEAD:
        return in_head(s, code, body, length, bit);
    case PICTURE:
        return in_picture(s, code, body, length, bit);
    case SLICES:
        return after_slice(s, code, body, length, bit);
    case ENDED:
        return code == 0xB7 ? ending_step(s, CLOSED, length) : OUT_OF_PLACE;
    case CLOSED:
        return OUT_OF_PLACE;
    }
    return OUT_OF_PLACE;
}

/* The body of a good unit: the whole of user data and opaque extensions. */
static size_t row_length(bool in_head, uint8_t code, const uint8_t *body, size_t length)
{
    bool whole = code == 0xB2 || (code == 0xB5 && extension_of(body, in_head) == OPAQUE);
    return whole ? length : trimmed_length(body, length);
}

/* ── filing ── */

typedef size_t search(const uint8_t *stream, size_t n, size_t from);

/* Always inlined, so that the search is a direct call and not one by its pointer. */
#define WITH_SEARCH static inline __attribute__((always_inline))

WITH_SEARCH unit unit_at(search next, const uint8_t *stream, size_t n, state s, size_t at, size_t *bit)
{
    unit u = {DONE, s, 0};
    size_t code_at = at + 3;
    if (!prefix_at(stream, n, at))
        u.status = NO_CODE;
    else if (n == code_at)
        u.status = CUT;
    else if (prefix_at(stream, n, code_at))
        u.status = OVERLAP;
    if (u.status != DONE)
        return u;
    u.end = next(stream, n, code_at);
    const uint8_t *body = stream + at + 4;
    size_t length = u.end - (at + 4);
    u.status = step_unit(&u.next, stream[code_at], body, length, bit);
    return u;
}

WITH_SEARCH answer check_units(search next, const uint8_t *stream, size_t n)
{
    if (!prefix_at(stream, n, 0))
        return (answer){NO_CODE, 0, 0, NO_BIT};
    state s = {START, false, false, 0, 0};
    size_t at = 0, units = 0, bit = NO_BIT;
    while (at < n) {
        unit u = unit_at(next, stream, n, s, at, &bit);
        if (u.status != DONE)
            return (answer){u.status, at, 0, bit};
        s = u.next;
        at = u.end;
        units++;
    }
    if (s.where == ENDED || s.where == CLOSED)
        return (answer){DONE, 0, units, NO_BIT};
    return (answer){UNENDED, at, 0, NO_BIT};
}

/* The row of a good unit. */
static inline void write_row(uint32_t *row, bool in_head, const uint8_t *stream, size_t at, size_t end)
{
    uint8_t code = stream[at + 3];
    row[0] = code;
    row[1] = (uint32_t)at;
    row[2] = (uint32_t)row_length(in_head, code, stream + at + 4, end - (at + 4));
}

/* No body is read again: of what was checked only heads are to be known. */
WITH_SEARCH void write_rows(search next, const uint8_t *stream, size_t n, uint32_t *rows)
{
    bool head = false;
    size_t at = 0;
    while (at < n) {
        uint8_t code = stream[at + 3];
        size_t end = next(stream, n, at + 3);
        write_row(rows, head, stream, at, end);
        rows += 3;
        head = code == 0xB0 || (head && code != 0xB3);
        at = end;
    }
}

WITH_SEARCH answer file(search next, const uint8_t *stream, size_t n, uint32_t *rows, size_t words)
{
    if (LONGEST_STREAM < n)
        return (answer){TOO_LONG, 0, 0, NO_BIT};
    answer a = check_units(next, stream, n);
    if (a.status != DONE)
        return a;
    if (words / 3 < a.count)
        return (answer){FULL, 0, 0, NO_BIT};
    write_rows(next, stream, n, rows);
    return a;
}

answer plain_file_by_three(const uint8_t *stream, size_t length, uint32_t *rows, size_t words)
{
    return file(next_by_three, stream, length, rows, words);
}

answer plain_file_bytewise(const uint8_t *stream, size_t length, uint32_t *rows, size_t words)
{
    return file(next_bytewise, stream, length, rows, words);
}

/* One pass, where the rows of a refusal do not matter: a unit's row is written at once while there is room, and units are
   counted on where there is none. */
answer plain_file_one_pass(const uint8_t *stream, size_t length, uint32_t *rows, size_t words)
{
    if (LONGEST_STREAM < length)
        return (answer){TOO_LONG, 0, 0, NO_BIT};
    if (!prefix_at(stream, length, 0))
        return (answer){NO_CODE, 0, 0, NO_BIT};
    state s = {START, false, false, 0, 0};
    size_t at = 0, units = 0, room = words / 3, bit = NO_BIT;
    while (at < length) {
        unit u = unit_at(next_by_three, stream, length, s, at, &bit);
        if (u.status != DONE)
            return (answer){u.status, at, 0, bit};
        if (units < room)
            write_row(rows + 3 * units, s.where == HEAD, stream, at, u.end);
        s = u.next;
        at = u.end;
        units++;
    }
    if (s.where != ENDED && s.where != CLOSED)
        return (answer){UNENDED, at, 0, NO_BIT};
    if (room < units)
        return (answer){FULL, 0, 0, NO_BIT};
    return (answer){DONE, 0, units, NO_BIT};
}

/* ── escape removal ── */

typedef struct {
    size_t full;
    uint32_t value;
    uint32_t k;
} packer;

static inline uint32_t kept_width(size_t zeros, uint8_t byte)
{
    return 2 <= zeros && byte == 2 ? 6 : 8;
}

static inline packer push_bits(uint8_t *out, packer p, uint8_t byte, uint32_t width)
{
    for (uint32_t j = 0; j < width; j += 2) {
        p.value = (p.value << 1) + ((uint32_t)byte >> (7 - j) & 1);
        p.value = (p.value << 1) + ((uint32_t)byte >> (6 - j) & 1);
        if (p.k == 6) {
            out[p.full] = (uint8_t)p.value;
            p.full++;
            p.value = 0;
            p.k = 0;
        } else {
            p.k += 2;
        }
    }
    return p;
}

static inline size_t fill_last(uint8_t *out, packer p)
{
    if (p.k != 0)
        out[p.full] = (uint8_t)(p.value << (8 - p.k));
    return p.full * 8 + p.k;
}

answer plain_remove_escapes(const uint8_t *raw, size_t length, uint8_t *output, size_t room)
{
    if (LONGEST_PAYLOAD < length)
        return (answer){TOO_LONG, 0, 0, NO_BIT};
    if (room < length)
        return (answer){FULL, 0, 0, NO_BIT};
    packer p = {0, 0, 0};
    size_t zeros = 0;
    for (size_t i = 0; i < length; i++) {
        p = kept_width(zeros, raw[i]) == 8 ? push_bits(output, p, raw[i], 8) : push_bits(output, p, raw[i], 6);
        zeros = raw[i] == 0 ? zeros + 1 : 0;
    }
    return (answer){DONE, 0, fill_last(output, p), NO_BIT};
}

/* Each bit is put at its own place of the output. */
answer plain_remove_escapes_bitwise(const uint8_t *raw, size_t length, uint8_t *output, size_t room)
{
    if (LONGEST_PAYLOAD < length)
        return (answer){TOO_LONG, 0, 0, NO_BIT};
    if (room < length)
        return (answer){FULL, 0, 0, NO_BIT};
    size_t zeros = 0, bits = 0;
    for (size_t i = 0; i < length; i++) {
        uint32_t width = kept_width(zeros, raw[i]);
        for (uint32_t j = 0; j < width; j++, bits++) {
            if (bits % 8 == 0)
                output[bits / 8] = 0;
            output[bits / 8] |= (uint8_t)((raw[i] >> (7 - j) & 1) << (7 - bits % 8));
        }
        zeros = raw[i] == 0 ? zeros + 1 : 0;
    }
    return (answer){DONE, 0, bits, NO_BIT};
}

/* Whole bytes: copied while the output is aligned, else shifted in. */
answer plain_remove_escapes_bytewise(const uint8_t *raw, size_t length, uint8_t *output, size_t room)
{
    if (LONGEST_PAYLOAD < length)
        return (answer){TOO_LONG, 0, 0, NO_BIT};
    if (room < length)
        return (answer){FULL, 0, 0, NO_BIT};
    packer p = {0, 0, 0};
    size_t zeros = 0;
    for (size_t i = 0; i < length; i++) {
        uint32_t width = kept_width(zeros, raw[i]);
        zeros = raw[i] == 0 ? zeros + 1 : 0;
        if (p.k == 0 && width == 8) {
            output[p.full++] = raw[i];
            continue;
        }
        p.value = p.value << width | raw[i] >> (8 - width);
        p.k += width;
        if (8 <= p.k) {
            p.k -= 8;
            output[p.full++] = (uint8_t)(p.value >> p.k);
            p.value &= (1u << p.k) - 1;
        }
    }
    return (answer){DONE, 0, fill_last(output, p), NO_BIT};
}

/* ── bins ── */

typedef struct {
    uint32_t rs;
    uint32_t rt;
    uint32_t vs;
    uint32_t vt;
    size_t place;
} bin_state;

typedef struct {
    uint32_t mps;
    uint32_t lg;
    uint32_t cycno;
} context;

typedef struct {
    uint32_t status;
    uint32_t missing; /* of PAYLOAD_OUT, how many bits; else 0 */
    bin_state state;
} started;

typedef struct {
    uint32_t status;
    uint32_t missing;
    uint32_t bin;
    bin_state state;
    context context;
} decoded;

typedef struct {
    const uint8_t *bytes;
    size_t length;
    size_t count;
} payload;

typedef struct {
    uint32_t s;
    uint32_t t;
    uint32_t range;
} split;

static inline bool good_state(bin_state x, size_t end)
{
    return x.rs <= x.vs && x.vs <= 524288 && x.rt <= 255 && x.vt <= 255 && x.place <= end;
}

static inline bool good_context(context c)
{
    return c.mps <= 1 && 4 <= c.lg && c.lg <= 1023 && c.cycno <= 3;
}

static inline uint32_t guard(payload y, bin_state x, context c)
{
    if (LONGEST_PAYLOAD < y.length)
        return TOO_LONG;
    size_t all = y.length * 8;
    if (!good_state(x, y.count < all ? y.count : all))
        return BAD_STATE;
    return good_context(c) ? DONE : BAD_STATE;
}

static inline bool take_bit(payload y, uint32_t *value, size_t *place, uint32_t *missing)
{
    int bit = read_bit(y.bytes, y.length, y.count, *place);
    if (bit < 0) {
        *missing = 1;
        return false;
    }
    *value = *value * 2 + (uint32_t)bit;
    *place += 1;
    return true;
}

/* The state of a value that is doubled, with the next bits, while it is below 256. */
static inline uint32_t settle(payload y, uint32_t rt, uint32_t value, size_t place, bin_state *next,
                              uint32_t *missing)
{
    uint32_t n = 0;
    while (value < 256) {
        if (!take_bit(y, &value, &place, missing))
            return PAYLOAD_OUT;
        n++;
    }
    *next = (bin_state){0, rt, n, value % 256, place};
    return DONE;
}

static inline split split_range(bin_state x, uint32_t q)
{
    if (q <= x.rt)
        return (split){x.rs, x.rt - q, q};
    return (split){x.rs + 1, 256 + x.rt - q, x.rt + q};
}

static inline bool misses(bin_state x, split r)
{
    return r.s == x.vs ? r.t <= x.vt : x.vs < r.s;
}

static inline uint32_t unpredicted(payload y, bin_state x, split r, bin_state *next, uint32_t *missing)
{
    uint32_t value = x.vt, range = r.range;
    size_t place = x.place;
    if (r.s != x.vs) {
        if (!take_bit(y, &value, &place, missing))
            return PAYLOAD_OUT;
        value += 256;
    }
    value -= r.t;
    while (range < 256) {
        if (!take_bit(y, &value, &place, missing))
            return PAYLOAD_OUT;
        range *= 2;
    }
    return settle(y, range % 256, value, place, next, missing);
}

static inline uint32_t rate(uint32_t cycno)
{
    return cycno <= 1 ? 3 : cycno == 2 ? 4 : 5;
}

static inline uint32_t gain(uint32_t w)
{
    return w == 3 ? 197 : w == 4 ? 95 : 46;
}

static inline context updated(context c, uint32_t bin)
{
    uint32_t w = rate(c.cycno);
    if (bin == c.mps) {
        c.cycno = c.cycno == 0 ? 1 : c.cycno;
        c.lg = c.lg - (c.lg >> w) - (c.lg >> (w + 2));
        return c;
    }
    c.cycno = c.cycno < 3 ? c.cycno + 1 : 3;
    c.lg += gain(w);
    if (1023 < c.lg) {
        c.lg = 2047 - c.lg;
        c.mps = 1 - c.mps;
    }
    return c;
}

/* One bin of a state and a context within their ranges; both stay for a refusal. */
static inline uint32_t step(payload y, bin_state *x, context *c, uint32_t *bin, uint32_t *missing)
{
    split r = split_range(*x, c->lg / 4);
    if (misses(*x, r)) {
        uint32_t status = unpredicted(y, *x, r, x, missing);
        if (status != DONE)
            return status;
        *bin = 1 - c->mps;
    } else {
        x->rs = r.s;
        x->rt = r.t;
        *bin = c->mps;
    }
    *c = updated(*c, *bin);
    return DONE;
}

started plain_start(const uint8_t *bytes, size_t length, size_t bits, bin_state state)
{
    started a = {DONE, 0, state};
    uint32_t value;
    if (LONGEST_PAYLOAD < length)
        a.status = TOO_LONG;
    else if (!read_bits(bytes, length, bits, 0, 9, &value, &a.missing))
        a.status = PAYLOAD_OUT;
    else
        a.status = settle((payload){bytes, length, bits}, 255, value, 9, &a.state, &a.missing);
    return a;
}

decoded plain_decode(const uint8_t *bytes, size_t length, size_t bits, bin_state state, context context)
{
    payload y = {bytes, length, bits};
    decoded a = {guard(y, state, context), 0, 2, state, context};
    if (a.status == DONE)
        a.status = step(y, &a.state, &a.context, &a.bin, &a.missing);
    return a;
}

uint32_t plain_decode_in_place(const uint8_t *bytes, size_t length, size_t bits, bin_state *state, context *context,
                               uint32_t *bin, uint32_t *missing)
{
    payload y = {bytes, length, bits};
    uint32_t status = guard(y, *state, *context);
    return status == DONE ? step(y, state, context, bin, missing) : status;
}

/* How much stack each call takes, on a stack that was painted before: the header's figures are upper bounds of what is printed.
 *
 *     stack RECORDING    RECORDING is a short, good one; what is filed are its groups once and again and again
 */
#include <inttypes.h>
#include <stdio.h>
#include <stdlib.h>
#include <string.h>
#include <ucontext.h>

#include <avsplus.h>

/* The header's figures, in bytes: of avsplus_file, and of every other call. */
enum { MOST_OF_FILE = 32 * 1024, MOST_OF_OTHERS = 2 * 1024 };

enum { STACK = 256 * 1024, PAINT = 0xA5, LONGEST = 64 * 1024, NUMBERS = 32 };

static uint8_t stack[STACK];
static ucontext_t here, there;

/* What calls work on. */
static uint8_t stream[LONGEST], output[LONGEST];
static uint32_t rows[3 * LONGEST];
static uint64_t numbers[NUMBERS];
static size_t groups, length;
static avsplus_state state;
static avsplus_context first, second;

static void need(bool holds, const char *what) {
    if (!holds) {
        fprintf(stderr, "stack: %s\n", what);
        exit(1);
    }
}

/* The calls, each by itself. */
static void nothing(void) {}
static void check(void) { need(avsplus_check(stream, length).status == AVSPLUS_DONE, "not checked"); }
static void file_small(void) { need(avsplus_file(stream, groups, rows, 3 * LONGEST).status == AVSPLUS_UNENDED, "not cut"); }
static void file(void) { need(avsplus_file(stream, length, rows, 3 * LONGEST).status == AVSPLUS_DONE, "not filed"); }
static void row_body(void) { avsplus_row_body(stream, length, rows, 3 * LONGEST, 1); }
static void group(void) { need(avsplus_group(stream, length, 1, numbers, NUMBERS).status == AVSPLUS_DONE, "no group"); }
static void header(void) { avsplus_sequence_header(stream + 4, 15, numbers, NUMBERS); }
static void extension(void) { avsplus_extension(stream + 38, 9, true, numbers, NUMBERS); }
static void frame_rate(void) { avsplus_frame_rate(3, numbers, NUMBERS); }
static void remove_escapes(void) { avsplus_remove_escapes(stream, length, output, LONGEST); }
static void golomb(void) { avsplus_unsigned_golomb(stream, length, 8 * length, 7); }
static void signed_golomb(void) { avsplus_signed_golomb(stream, length, 8 * length, 7); }
static void start(void) { state = avsplus_start(stream, length, 8 * length, state).state; }
static void decode(void) { avsplus_decode(stream, length, 8 * length, state, first); }
static void decode_at_end(void) { avsplus_decode(stream, length, state.place + 20, state, first); }
static void decode_pair(void) { avsplus_decode_pair(stream, length, 8 * length, state, first, second); }
static void decode_pair_at_end(void) { avsplus_decode_pair(stream, length, state.place + 20, state, first, second); }
static void bypass(void) { avsplus_bypass(stream, length, 8 * length, state); }
static void stuffing(void) { avsplus_stuffing(stream, length, 8 * length, state); }
static void next_start_code(void) { avsplus_next_start_code(stream, length, 1); }

static const struct {
    const char *name;
    void (*call)(void);
    size_t most;
} calls[] = {
    {"avsplus_check", check, MOST_OF_OTHERS},
    {"avsplus_file, a short stream", file_small, MOST_OF_FILE},
    {"avsplus_file, a long one", file, MOST_OF_FILE},
    {"avsplus_row_body", row_body, MOST_OF_OTHERS},
    {"avsplus_group", group, MOST_OF_OTHERS},
    {"avsplus_sequence_header", header, MOST_OF_OTHERS},
    {"avsplus_extension", extension, MOST_OF_OTHERS},
    {"avsplus_frame_rate", frame_rate, MOST_OF_OTHERS},
    {"avsplus_remove_escapes", remove_escapes, MOST_OF_OTHERS},
    {"avsplus_unsigned_golomb", golomb, MOST_OF_OTHERS},
    {"avsplus_signed_golomb", signed_golomb, MOST_OF_OTHERS},
    {"avsplus_start", start, MOST_OF_OTHERS},
    {"avsplus_decode", decode, MOST_OF_OTHERS},
    {"avsplus_decode, by single bits", decode_at_end, MOST_OF_OTHERS},
    {"avsplus_decode_pair", decode_pair, MOST_OF_OTHERS},
    {"avsplus_decode_pair, by single bits", decode_pair_at_end, MOST_OF_OTHERS},
    {"avsplus_bypass", bypass, MOST_OF_OTHERS},
    {"avsplus_stuffing", stuffing, MOST_OF_OTHERS},
    {"avsplus_next_start_code", next_start_code, MOST_OF_OTHERS},
};

/* The bytes of a painted stack, from its end down to the deepest one that a call wrote. */
static size_t taken_by(void (*call)(void)) {
    memset(stack, PAINT, sizeof stack);
    need(getcontext(&there) == 0, "there is no context");
    there.uc_stack.ss_sp = stack;
    there.uc_stack.ss_size = sizeof stack;
    there.uc_link = &here;
    makecontext(&there, call, 0);
    need(swapcontext(&here, &there) == 0, "the stack cannot be changed");
    size_t at = 0;
    while (at < sizeof stack && stack[at] == PAINT) {
        at++;
    }
    need(at != 0, "the stack is used up");
    return sizeof stack - at;
}

/* Where the ending of a recording begins. */
static size_t ending_of(size_t got) {
    avsplus_answer a = avsplus_file(stream, got, rows, sizeof rows / sizeof rows[0]);
    need(a.status == AVSPLUS_DONE, "a good recording is wanted");
    size_t i = a.count;
    while (0 < i && avsplus_kind((uint8_t)rows[AVSPLUS_ROW_WORDS * (i - 1) + AVSPLUS_ROW_CODE]) != AVSPLUS_SLICE) {
        i--;
    }
    return rows[AVSPLUS_ROW_WORDS * i + AVSPLUS_ROW_OFFSET];
}

/* The groups of a recording again and again, and a sequence end. */
static void read_streams(const char *path) {
    static const uint8_t ending[] = {0, 0, 1, 0xB1};
    FILE *recording = fopen(path, "rb");
    need(recording != NULL, "the recording cannot be opened");
    size_t got = fread(stream, 1, LONGEST / 4, recording);
    fclose(recording);
    groups = ending_of(got);
    for (length = groups; length < LONGEST / 2; length += groups) {
        memcpy(stream + length, stream, groups);
    }
    memcpy(stream + length, ending, sizeof ending);
    length += sizeof ending;
}

int main(int argc, char **argv) {
    need(argc == 2, "usage: stack RECORDING");
    read_streams(argv[1]);
    first = second = avsplus_fresh_context();
    size_t own = taken_by(nothing);
    bool within = true;
    for (size_t i = 0; i < sizeof calls / sizeof calls[0]; i++) {
        size_t taken = taken_by(calls[i].call) - own;
        printf("%-36s %6zu bytes of stack, at most %6zu\n", calls[i].name, taken, calls[i].most);
        within = within && taken <= calls[i].most;
    }
    need(within, "a call takes more stack than the header says");
    return 0;
}

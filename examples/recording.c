/* recording FILE: the units of an AVS+ recording, the size and frame rate in each sequence header, and the first group's
 * display. Exit status: 0 where the recording is filed, 1 where it is refused, 2 where that could not be found out. */
#include <inttypes.h>
#include <stdio.h>
#include <stdlib.h>

#include <avsplus.h>

/* One byte more than the longest stream is enough: of a longer file the library says itself that it is TOO LONG. */
static uint8_t stream[AVSPLUS_LONGEST_STREAM + 1];

/* Ends the program with a message where it cannot go on. */
static void need(bool holds, const char *what) {
    if (!holds) {
        fprintf(stderr, "recording: %s\n", what);
        exit(2);
    }
}

/* Reads a file into stream, and answers how many bytes it has there. */
static size_t read_stream(const char *path) {
    FILE *file = fopen(path, "rb");
    need(file != NULL, "the file cannot be opened");
    size_t length = fread(stream, 1, sizeof stream, file);
    bool failed = ferror(file) != 0;
    fclose(file);
    need(!failed, "the file cannot be read");
    return length;
}

static void print_header(const uint8_t *body, size_t length) {
    uint64_t n[AVSPLUS_HEADER_NUMBERS], rate[AVSPLUS_RATIO_NUMBERS];
    avsplus_answer a = avsplus_sequence_header(body, length, n, AVSPLUS_HEADER_NUMBERS);
    need(a.status == AVSPLUS_DONE, "the library refuses a sequence header that it filed");
    printf("  size %" PRIu64 " x %" PRIu64 "\n", n[AVSPLUS_HEADER_HORIZONTAL_SIZE], n[AVSPLUS_HEADER_VERTICAL_SIZE]);
    a = avsplus_frame_rate((uint32_t)n[AVSPLUS_HEADER_FRAME_RATE_CODE], rate, AVSPLUS_RATIO_NUMBERS);
    need(a.status == AVSPLUS_DONE, "the library refuses a frame rate's code");
    if (a.count < AVSPLUS_RATIO_NUMBERS) {
        puts("  frame rate not given");
    } else {
        printf("  frame rate %" PRIu64 "/%" PRIu64 "\n", rate[AVSPLUS_RATIO_NUMERATOR], rate[AVSPLUS_RATIO_DENOMINATOR]);
    }
}

/* Files the stream, of which avsplus_check has counted the units, and prints each. */
static void print_units(size_t length, size_t count) {
    size_t words = AVSPLUS_ROW_WORDS * count;
    uint32_t *rows = malloc(words * sizeof *rows);
    need(rows != NULL, "there is no memory for the rows");
    need(avsplus_file(stream, length, rows, words).status == AVSPLUS_DONE, "the library refuses what it checked");
    for (size_t i = 0; i < count; i++) {
        const uint32_t *row = rows + AVSPLUS_ROW_WORDS * i;
        avsplus_part body = avsplus_row_body(stream, length, rows, words, i);
        printf("unit %zu: code %02" PRIX32 ", offset %" PRIu32, i, row[AVSPLUS_ROW_CODE], row[AVSPLUS_ROW_OFFSET]);
        printf(", length %zu", body.length);
        if (body.length > 0) {
            printf(", first byte %02X", (unsigned)stream[body.offset]);
        }
        putchar('\n');
        if (avsplus_kind((uint8_t)row[AVSPLUS_ROW_CODE]) == AVSPLUS_SEQUENCE_HEADER) {
            print_header(stream + body.offset, body.length);
        }
    }
    free(rows);
}

/* The count says what the group has. What it does not have was not written to n, and is not read from it. */
static void print_first_group(size_t length) {
    uint64_t n[AVSPLUS_GROUP_WITH_COLOUR];
    avsplus_answer a = avsplus_group(stream, length, 0, n, AVSPLUS_GROUP_WITH_COLOUR);
    need(a.status == AVSPLUS_DONE, "the library refuses the first group of what it filed");
    puts("group 0:");
    if (a.count < AVSPLUS_GROUP_WITH_DISPLAY) {
        puts("  display size not given");
    } else {
        printf("  display size %" PRIu64 " x %" PRIu64 "\n", n[AVSPLUS_GROUP_DISPLAY_WIDTH], n[AVSPLUS_GROUP_DISPLAY_HEIGHT]);
    }
    if (a.count < AVSPLUS_GROUP_WITH_COLOUR) {
        puts("  colour not given");
    } else {
        printf("  colour primaries %" PRIu64 ", transfer %" PRIu64 ", matrix %" PRIu64 "\n", n[AVSPLUS_GROUP_COLOUR_PRIMARIES],
               n[AVSPLUS_GROUP_COLOUR_TRANSFER], n[AVSPLUS_GROUP_COLOUR_MATRIX]);
    }
}

/* MARKER and a field's value are refused at a bit of the unit's body; no other refusal has one. */
static void print_refusal(avsplus_answer a) {
    printf("refused with %" PRIu32 " at byte %zu", a.status, a.offset);
    if (a.bit != AVSPLUS_NO_BIT) {
        printf(", bit %zu of the body", a.bit);
    }
    putchar('\n');
}

int main(int argc, char **argv) {
    need(argc == 2, "usage: recording FILE");
    need(avsplus_version() == AVSPLUS_VERSION, "the library is not that of the header");
    size_t length = read_stream(argv[1]);
    avsplus_answer a = avsplus_check(stream, length);
    if (a.status != AVSPLUS_DONE) {
        print_refusal(a);
    } else {
        print_units(length, a.count);
        print_first_group(length);
    }
    need(fflush(stdout) == 0 && !ferror(stdout), "the output cannot be written");
    return a.status == AVSPLUS_DONE ? 0 : 1;
}

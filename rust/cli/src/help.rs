//! The help texts. The man page is made of them.

/// The options that say what of FILE is the payload.
macro_rules! payload_options {
    () => {
        "\
\x20 --unit N      FILE is a recording, and the payload is the body of its unit N, a
                picture or a slice, whose escape bits are removed
  --escaped     FILE is such a body: escape bits are removed
  --bits N      FILE has no escape bits, and its first N bits are the payload; N may be
                all. Without any of these three FILE is taken to have no escape bits,
                and nobody says where the payload ends: zeros at the end of the last
                byte may be filling, and are not read
"
    };
}

/// Help on the program.
pub const OVERVIEW: &str = "\
Files AVS+ (GY/T 257.1) recordings. A bit that is missing is never read as 0, and a
field that is not in the stream is not given.

Usage: avsplus [--json] COMMAND ARGUMENTS

Recordings:
  file REC               the sheet: answer, units, and each group's fields
  units REC              the units alone
  header REC             sequence header, display and copyright extensions of a group
  body REC N             the body of unit N

Payloads:
  unescape FILE          escape bits removed
  golomb FILE            Exp-Golomb numbers, one after another
  bins FILE --count K    bins of the arithmetic decoder
  tables                 the tables that bins take a context's next lg from

Help:
  help                   this text
  help COMMAND           help on a command, as COMMAND --help gives it
  help refusals          the refusals with their numbers, and what they mean
  help --man             all of it as a man page

Options:
  --json                 one JSON object instead of text; before or after a command
  --help                 help, on the command it stands after
  --version              the version

REC or FILE may be -, which reads standard input.

Exit status: 0 when filed or done, 1 when refused, 2 when the arguments are wrong, or
a file or the output cannot be read or written.
";

/// Help on `file`.
pub const FILE: &str = "\
Files a recording and prints its sheet: the answer, the units, then for each group the
fields of its sequence header, of its display extension and of its copyright
extensions. Each field has its first bit in the body and its width beside it; what is
worked out from fields says so and how. What the stream does not have is not given. Of
a refused recording the sheet has the answer, its reason, how many bytes there are, and
the bytes where the refusal stands. MARKER and VALUE of a field say the bit of the body,
and the sheet which byte that is in.

Usage: avsplus file REC [--json]

  REC       the recording, or - for standard input
  --json    one JSON object instead of text; what is worked out stands apart, and a
            copyright number, which may be over 2^53, is a string
  --help    this text

Exit status: 0 filed, 1 refused, 2 wrong arguments, or a file or output that cannot be
read or written.
";

/// Help on `units`.
pub const UNITS: &str = "\
Files a recording and prints its units: index, group, code in hexadecimal, kind, offset
of the start code, length of the body, and zero bytes that follow the body. The ending
belongs to no group. Extensions are told apart: display, copyright, or opaque with
their number.

Usage: avsplus units REC [--json]

  REC       the recording, or - for standard input
  --json    one JSON object instead of text
  --help    this text

Exit status: 0 filed, 1 refused, 2 wrong arguments, or a file or output that cannot be
read or written.
";

/// Help on `header`.
pub const HEADER: &str = "\
Files a recording and prints one group: its sequence header, its display extension and
its copyright extensions, as the sheet has them.

Usage: avsplus header REC [--group G] [--json]

  REC          the recording, or - for standard input
  --group G    the group, counted from 0; 0 where it is not said
  --json       one JSON object instead of text
  --help       this text

Exit status: 0 done, 1 refused or no such group, 2 wrong arguments, or a file or output
that cannot be read or written.
";

/// Help on `body`.
pub const BODY: &str = "\
Files a recording and writes the body of one unit to standard output, as it is: escape
bits are not removed.

Usage: avsplus body REC N [--hex] [--json]

  REC       the recording, or - for standard input
  N         the unit, counted from 0
  --hex     hexadecimal instead of the bytes
  --json    one JSON object with the unit and its bytes in hexadecimal
  --help    this text

Exit status: 0 done, 1 refused or no such unit, 2 wrong arguments, or a file or output
that cannot be read or written.
";

/// Help on `unescape`.
pub const UNESCAPE: &str = "\
Removes the escape bits of a payload and prints how many bits are left, the bytes in
hexadecimal, and with which --bits they are to be read: the last byte is filled with
zeros, which are not the payload's. To read numbers or bins of a payload with escape
bits in one step see --unit and --escaped of golomb and bins.

Usage: avsplus unescape FILE [--unit N] [--output OUT] [--json]

  FILE            the payload, or - for standard input
  --unit N        FILE is a recording, and the payload is the body of its unit N, a
                  picture or a slice
  --output OUT    the bytes go to this file, in the place of what is there; with - to
                  standard output, and then the count goes to standard error
  --json          one JSON object instead of text
  --help          this text

Exit status: 0 done, 1 refused, 2 wrong arguments, or a file or output that cannot be
read or written.
";

/// Help on `golomb`.
pub const GOLOMB: &str = concat!(
    "\
Reads Exp-Golomb numbers one after another and prints each with its bit place. Without
--count it reads until the payload ends; bits that are left and are no whole number,
such as zeros that may be filling, are a refusal, which says how many they are and how
many more were wanted. The zeros before a number's first 1, and that 1, are read bit by
bit, so that 1 more is wanted; the bits after it, as many as the zeros, are one read.

Usage: avsplus golomb FILE [--unit N | --escaped | --bits N] [--signed] [--place P]
                           [--count K] [--json]

  FILE          the payload, or - for standard input
",
    payload_options!(),
    "  --signed      signed numbers
  --place P     the bit to begin at; 0 where it is not said
  --count K     exactly K numbers
  --json        one JSON object instead of text
  --help        this text

Exit status: 0 when the payload ends with a number or K numbers are read, 1 refused, 2
wrong arguments, or a file or output that cannot be read or written.
"
);

/// Help on `bins`.
pub const BINS: &str = concat!(
    "\
Starts the arithmetic decoder on a payload, decodes bins with one fresh context, and
prints the bins, the state and the context after them. A payload that ends too early is
a refusal, which says how many more bits were wanted. The first nine bits are one read,
so that 1 to 9 more are wanted to start; all others are read bit by bit, and 1 more is.

Usage: avsplus bins FILE [--unit N | --escaped | --bits N] --count K
                         [--bypass | --stuffing] [--json]

  FILE          the payload, or - for standard input
",
    payload_options!(),
    "  --count K     how many bins
  --bypass      bypass bins, which have no context
  --stuffing    stuffing bins, which have no context
  --json        one JSON object instead of text
  --help        this text

Exit status: 0 done, 1 refused, 2 wrong arguments, or a file or output that cannot be
read or written.
"
);

/// Help on `tables`.
pub const TABLES: &str = "\
Prints the tables of context steps: for every lg from 0 to 1023 the lg of a context after
a bin that was its mps, at w 3, 4 and 5. w goes by the context's cycno before the bin: 3
for 0 or 1, 4 for 2, 5 for 3. Bins take the lg from these tables.

Usage: avsplus tables [--json]

  --json        one JSON object instead of text
  --help        this text

Exit status: 0 done, 2 wrong arguments, or output that cannot be written.
";

/// Before the table of refusals.
pub const REFUSALS: &str = "\
The refusals: number, name, and what each means. MARKER and VALUE of a field, 20 to 32,
are told with the bit of the body: the marker, or the field's first bit, and 0 for a
slice, which is refused for its code byte. PAYLOAD OUT is told with how many more bits
were wanted than the payload holds, by the one read that failed: what would be read after
it is not counted. docs/RULES.md of the project says of each refusal exactly when it is
given, and what to look at in the recording.

";

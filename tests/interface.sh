#!/usr/bin/env bash
# What is linked with a library of another interface, before or after this one, says so, and asks nothing else of it: of the library
# that is made here every function but avsplus_version ends the program. A line for each that holds; the first that does not ends it.
set -euo pipefail
cd "$(dirname "$0")/.."

scripts/needs gcc ar cargo
scratch=$(mktemp -d)
trap 'rm -rf "$scratch"' EXIT
interface=$(sed -n 's/^#define AVSPLUS_VERSION \([0-9]*\)u$/\1/p' include/avsplus.h)

{
    echo "#include <stdlib.h>"
    echo 'unsigned avsplus_version(void) { return (unsigned)atoi(getenv("OTHER_INTERFACE")); }'
    gcc -E -P include/avsplus.h | grep -oE 'avsplus_[a-z0-9_]+\(' | tr -d '(' | grep -v '^avsplus_version$' |
        sed 's/.*/void &(void) { abort(); }/'
} >"$scratch/other.c"
gcc -c "$scratch/other.c" -o "$scratch/other.o"
ar crs "$scratch/libavsplus.a" "$scratch/other.o"

built=rust/target/other
cargo="cargo --quiet build --manifest-path rust/Cargo.toml --release --locked --target-dir $built"
AVSPLUS_LIB_DIR=$scratch $cargo -p avsplus-cli
AVSPLUS_LIB_DIR=$scratch $cargo -p avsplus --example recording

# says TEXT COMMAND..: exit status 2, nothing on standard output, and this on standard error.
says() {
    local text=$1 status=0
    shift
    "$@" >"$scratch/out" 2>"$scratch/err" || status=$?
    [ "$status" = 2 ] && [ ! -s "$scratch/out" ] && [ "$(cat "$scratch/err")" = "$text" ] && return
    echo "FAIL $*: exit status $status: $(head -1 "$scratch/err")"
    exit 1
}

sample=samples/two-groups.avs
program=$built/release/avsplus
for OTHER_INTERFACE in $((interface - 1)) $((interface + 1)); do
    export OTHER_INTERFACE
    words="avsplus: OTHER INTERFACE (version $OTHER_INTERFACE): the library has another interface than this program"
    says "$words" "$program" file "$sample"
    says "$words" "$program" file "$sample" --json
    says "$words" "$program" units "$sample"
    says "$words" "$program" header "$sample"
    says "$words" "$program" body "$sample" 0
    says "$words" "$program" unescape "$sample"
    says "$words" "$program" golomb "$sample" --escaped
    says "$words" "$program" golomb "$sample" --bits 8
    says "$words" "$program" bins "$sample" --bits 80 --count 1
    echo "ok   interface $OTHER_INTERFACE: every command says that the library has another one"
    says "recording: the library is not that of the crate" "$built/release/examples/recording" "$sample"
    echo "ok   interface $OTHER_INTERFACE: the README's program in Rust says so too"
done

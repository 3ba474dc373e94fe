#!/bin/sh
# Compares what the C header declares with the Rust side, the structs' fields, the refusal numbers, kinds of a
# record, lists, directions and sizes with Rattle's, and the version, those numbers with their meanings, kinds of a
# record, lists, directions and sizes with Python's. KUTIMUQ_INCLUDE names the header's folder, default include/ of
# the repository.
set -eu

here=$(cd "$(dirname "$0")" && pwd)
root=$here/..
include=${KUTIMUQ_INCLUDE:-$root/include}
work=$(mktemp -d)
trap 'rm -rf "$work"' EXIT

# Counts the lines of two files that are to be equal: WHAT ONE OTHER.
equal() {
    if ! diff "$2" "$3"; then
        echo "layout: $1 differ"
        exit 1
    fi
    passed=$((passed + $(wc -l < "$2")))
}
passed=0

gcc -std=c11 -Wall -Wextra -Werror -pedantic -I "$include" -o "$work/layout" "$here/layout.c"
"$work/layout" > "$work/c"
cargo build -q --release --offline --manifest-path "$here/Cargo.toml" "$@"
"${CARGO_TARGET_DIR:-$here/target}/release/kutimuq-tests" --layout > "$work/rust"
equal "C and Rust" "$work/c" "$work/rust"

sed -n '/^ACCEPTED /d; s/ number \([0-9]*\):.*/ \1/p' "$work/rust" > "$work/numbers"
python3 "$here/fields.py" reasons "$root/crates" > "$work/rattle"
equal "the refusal numbers of Rust and Rattle" "$work/numbers" "$work/rattle"
prefixes='RECORD\|LIST\|DIRECTION\|SCREEN\|WRITE_AREA\|PACK_AREA\|PLATE\|LONGEST_PLATE\|IMG\|SPU\|SPECTRUM'
constants="\(${prefixes}\)_[A-Z_0-9]*"
grep "^version \| number [0-9]*: \|^$constants is " "$work/rust" > "$work/named"
PYTHONPATH=$root/bindings/python python3 "$here/layout.py" > "$work/python"
equal "Rust and Python" "$work/named" "$work/python"

python3 "$here/fields.py" rattle "$root/crates" > "$work/rattle-fields"
python3 "$here/fields.py" c "$include/kutimuq.h" > "$work/c-fields"
equal "the fields of Rattle's structs and C's" "$work/rattle-fields" "$work/c-fields"

python3 "$here/fields.py" constants "$root/crates" > "$work/rattle-constants"
sed 's/^\(.*\) is .*/^\1 is /' "$work/rattle-constants" | grep -f - "$work/rust" > "$work/rust-constants"
equal "the constants of Rust and Rattle" "$work/rust-constants" "$work/rattle-constants"

echo "layout: $passed passed, 0 failed"

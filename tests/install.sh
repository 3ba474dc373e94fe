#!/bin/sh
# Installs the C library into a folder of its own, and builds and runs examples/use.c over it: by
# kutimuq.pc with the shared object, and with the archive. The summary program, which KUTIMUQ_SUMMARY
# names, says what the example must print.
set -eu

root=$(cd "$(dirname "$0")/.." && pwd)
sample=$root/samples/ponds.pc1
torn=$root/samples/torn.pc1
work=$(mktemp -d)
trap 'rm -rf "$work"' EXIT
include=$work/usr/include
lib=$work/usr/lib
warnings="-Wall -Wextra -Werror -pedantic"
passed=0

# Counts a check that holds: WHAT, then a command.
check() {
    what=$1
    shift
    if ! "$@"; then
        echo "install: failed: $what"
        exit 1
    fi
    passed=$((passed + 1))
}

# Whether the compiler takes a C program that is standard input.
# shellcheck disable=SC2086
compiles() {
    gcc -std=c11 $warnings -I "$include" -x c -c - -o "$work/object" 2> "$work/errors"
}

# Whether the compiler refuses to take standard input, for this warning.
warns() {
    ! compiles && grep -q -e "-Werror=$1" "$work/errors"
}

installed_library() {
    version=$(sed -n 's/#define KUTIMUQ_VERSION "\(.*\)"/\1/p' "$include/kutimuq.h")
    soname=$(readelf -d "$lib/libkutimuq.so" | sed -n 's/.*soname: \[\(.*\)\]/\1/p')
    check "soname" test "$soname" = "libkutimuq.so.${version%.*}"
    check "the soname is installed" test -e "$lib/$soname"
    nm -D --defined-only "$lib/libkutimuq.so" | sed -n 's/.* T \(kutimuq_.*\)/\1/p' | sort > "$work/defined"
    sed -n 's/^Kutimuq[A-Za-z]* \(kutimuq_[a-z_]*\)(.*/\1/p' "$include/kutimuq.h" | sort > "$work/declared"
    check "functions declared and defined" cmp "$work/declared" "$work/defined"
    check "version" test "$(pkg-config --modversion kutimuq)" = "$version"
}

# shellcheck disable=SC2086
header() {
    check "the header in C++" g++ $warnings -I "$include" -x c++ -fsyntax-only "$include/kutimuq.h"
    begin='#include <kutimuq.h>\nuint8_t area[130];\nuint8_t f(void) {'
    printf "$begin return kutimuq_pack_row(area, 1, area + 1, 129).refusal.number; }\n" > "$work/good.c"
    check "a call" compiles < "$work/good.c"
    printf "$begin kutimuq_pack_row(area, 1, area + 1, 129); return 0; }\n" > "$work/dropped.c"
    check "a warning of an answer dropped" warns unused-result < "$work/dropped.c"
    printf "$begin return kutimuq_pack_row(NULL, 0, area, 129).refusal.number; }\n" > "$work/null.c"
    check "a warning of a null pointer" warns nonnull < "$work/null.c"
}

# The example agrees with the summary program: PROGRAM.
example() {
    "$1" "$sample" > "$work/out"
    "$KUTIMUQ_SUMMARY" < "$sample" > "$work/summary"
    head -n 4 "$work/summary" > "$work/expected"
    head -n 4 "$work/out" > "$work/found"
    check "the sample's reading" cmp "$work/expected" "$work/found"
    sed -n 's/^tally //p' "$work/summary" | tr ' ' '\n' | sed '/^0$/d' > "$work/expected"
    sed -n 's/^register .* //p' "$work/out" > "$work/found"
    check "the sample's tally" cmp "$work/expected" "$work/found"

    "$1" "$work/scan" > "$work/found"
    check "a scan" cmp "$work/black" "$work/found"

    "$1" "$work/spc" > "$work/found"
    check "a Spectrum 512 picture" cmp "$work/colours" "$work/found"
    "$1" "$work/bit-15" 2> "$work/errors" || :
    check "an SPC file's refusal" grep -qF "$work/bit-15: refused 15 at 0: " "$work/errors"

    status=0
    "$1" "$work/cut" 2> "$work/errors" || status=$?
    check "exit status of a refusal" test "$status" = 1
    refusal=$("$KUTIMUQ_SUMMARY" < "$work/cut")
    check "the cut sample's refusal" grep -qF "$work/cut: $refusal: " "$work/errors"

    "$1" "$torn" 2> "$work/errors" || :
    refusal="$("$KUTIMUQ_SUMMARY" < "$torn"): a record crosses its row's end (plane row 481, 30 bytes good)"
    check "the torn sample's row" grep -qxF "$torn: $refusal" "$work/errors"
}

make -s -C "$root" -o crates/capi/out/libcapi.a install PREFIX=/usr DESTDIR="$work"
export PKG_CONFIG_LIBDIR="$lib/pkgconfig" PKG_CONFIG_SYSROOT_DIR="$work" LD_LIBRARY_PATH="$lib"
export PKG_CONFIG_ALLOW_SYSTEM_CFLAGS=1 PKG_CONFIG_ALLOW_SYSTEM_LIBS=1
installed_library
header

# shellcheck disable=SC2086,SC2046
{
    gcc -std=c11 $warnings "$root/examples/use.c" $(pkg-config --cflags --libs kutimuq) -o "$work/shared"
    gcc -std=c11 $warnings -I "$include" "$root/examples/use.c" "$lib/libkutimuq.a" -o "$work/static"
}
head -c -1 "$sample" > "$work/cut"
# A GEM IMG file of 300 black lines of 17 pixels, in scanline runs of 255 and 45.
printf '\0\1\0\10\0\1\0\2\1\164\1\164\0\21\1\54\0\0\377\377\203\0\0\377\55\203' > "$work/scan"
printf 'scan 17 x 300\nblack 5100\n' > "$work/black"
# An SPC file of register 0 alone: 244 repeats of 130 bytes and one of 120; three palettes with one word, 594 without.
{
    printf 'SP\0\0\0\0\1\352\0\0\4\260'
    # shellcheck disable=SC2046 # one word a repeat
    printf '\200\0%.0s' $(seq 244)
    printf '\212\0\0\1\1\43\0\1\7\0\0\1\0\7'
    head -c 1188 /dev/zero
} > "$work/spc"
# The same with bit 15 of the first vector set.
{
    head -c 502 "$work/spc"
    printf '\200'
    tail -c +504 "$work/spc"
} > "$work/bit-15"
printf 'spectrum 320 x 200\ncolours 3\n' > "$work/colours"
example "$work/shared"
example "$work/static"
echo "install: $passed passed, 0 failed"

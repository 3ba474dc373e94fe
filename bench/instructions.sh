#!/bin/sh
# Instructions per call, by callgrind: each operation done twice less done once, by the library and in plain Rust.
#
# Usage: instructions.sh [OPERATION...]
#
# OPERATION is an operation of the tables of times, or pack-row alone; twenty-three are counted where none is named. The
# environment variable SCREEN is a screen of the first table, by default map; 64 screens in turn count as one call.
# An operation on plates is counted on each plate, img-read on each scan, one on Spectrum 512 pictures on each of them,
# one on legends on each legend, colours on each machine, animation by each list.
set -eu

# Valgrind counts each byte of a rep movsb as one instruction: here no copy is long enough for one.
export GLIBC_TUNABLES=glibc.cpu.x86_rep_movsb_threshold=1000000

here=$(cd "$(dirname "$0")" && pwd)
cargo build -q --release --offline --manifest-path "$here/Cargo.toml"
bench=${CARGO_TARGET_DIR:-$here/target}/release/kutimuq-bench
screen=${SCREEN:-map}

# All instructions of a run: OPERATION SCREEN SIZE N.
collected() {
    valgrind --tool=callgrind --callgrind-out-file=/dev/null "$bench" --once "$@" 2>&1 | sed -n 's/.*Collected : //p'
}

# Instructions of one operation: OPERATION SCREEN SIZE. An unknown name ends the script with the program's own message.
instructions() {
    "$bench" --once "$@" 1 || exit
    twice=$(collected "$@" 2)
    once=$(collected "$@" 1)
    if [ "$twice" -le "$once" ]; then
        echo "no count of: $*" >&2
        exit 1
    fi
    echo $((twice - once))
}

# Counts in columns, those of the library before those of plain Rust, and the ratios: NAME COUNT...
columns() {
    echo "$@" | awk '
        function grouped(n) { return n < 1000 ? n : grouped(int(n / 1000)) sprintf(",%03d", n % 1000) }
        {
            half = (NF - 1) / 2
            printf "| %s |", $1
            for (i = 2; i <= NF; i++) printf " %s |", grouped($i)
            for (i = 2; i <= half + 1; i++) printf "%s %.2f", i == 2 ? "" : ",", $i / $(i + half)
            print " |"
        }'
}

# A line of the table of pictures: OPERATION.
picture_line() {
    counts=
    for by in "" rust-; do
        for resolution in low medium high; do
            count=$(instructions "$by$1" "$screen" $resolution)
            counts="$counts $count"
        done
    done
    # shellcheck disable=SC2086 # one word a count
    columns "$1" $counts
}

picture_lines() {
    echo "| operation | low | medium | high | Rust low | Rust medium | Rust high | ratio |"
    echo "|---|---|---|---|---|---|---|---|"
    for operation; do
        picture_line "$operation"
    done
    copy=$(instructions memcpy "$screen" low)
    echo
    echo "memcpy of a screen: $copy"
}

# A line of the table of plates: OPERATION.
plate_line() {
    counts=
    for by in "" rust-; do
        for plate in text blank noise worst worst-blank-end; do
            count=$(instructions "$by$1" $plate plate)
            counts="$counts $count"
        done
    done
    # shellcheck disable=SC2086 # one word a count
    columns "$1" $counts
}

plate_lines() {
    plates="text | blank | noise | worst | worst-blank-end"
    echo "| operation | $plates | Rust $(echo "$plates" | sed 's/ | / | Rust /g') | ratio |"
    echo "|---|---|---|---|---|---|---|---|---|---|---|---|"
    for operation; do
        plate_line "$operation"
    done
    copy=$(instructions memcpy blank plate)
    echo
    echo "memcpy of a plate: $copy"
}

scan_lines() {
    scans="sheet | sheet-by-lines | blank | shaded | noise | worst | narrow"
    echo "| operation | $scans | Rust $(echo "$scans" | sed 's/ | / | Rust /g') | ratio |"
    echo "|---|---|---|---|---|---|---|---|---|---|---|---|---|---|---|---|"
    counts=
    for by in "" rust-; do
        for scan in $(echo "$scans" | tr -d '|'); do
            count=$(instructions "${by}img-read" "$scan" scan)
            counts="$counts $count"
        done
    done
    # shellcheck disable=SC2086 # one word a count
    columns img-read $counts
    copy=$(instructions memcpy blank scan)
    echo
    echo "memcpy of a scan: $copy"
}

# A line of the table of Spectrum 512 pictures: OPERATION.
spectrum_line() {
    counts=
    for by in "" rust-; do
        for picture in photo blank noise worst; do
            count=$(instructions "$by$1" $picture spectrum)
            counts="$counts $count"
        done
    done
    # shellcheck disable=SC2086 # one word a count
    columns "$1" $counts
}

spectrum_lines() {
    spectrums="photo | blank | noise | worst"
    echo "| operation | $spectrums | Rust $(echo "$spectrums" | sed 's/ | / | Rust /g') | ratio |"
    echo "|---|---|---|---|---|---|---|---|---|---|"
    for operation; do
        spectrum_line "$operation"
    done
    copy=$(instructions memcpy blank spectrum)
    echo
    echo "memcpy of a screen and its palettes: $copy"
}

# A line of the table of legends: OPERATION.
legend_line() {
    counts=
    for by in "" rust-; do
        for legend in new shared damaged; do
            count=$(instructions "$by$1" $legend legend)
            counts="$counts $count"
        done
    done
    # shellcheck disable=SC2086 # one word a count
    columns "$1" $counts
}

legend_lines() {
    echo "| operation | new | shared | damaged | Rust new | Rust shared | Rust damaged | ratio |"
    echo "|---|---|---|---|---|---|---|---|"
    for operation; do
        legend_line "$operation"
    done
}

machine_lines() {
    echo "| operation | st | ste | Rust st | Rust ste | ratio |"
    echo "|---|---|---|---|---|---|"
    counts=
    for by in "" rust-; do
        for machine in st ste; do
            count=$(instructions "${by}colours" $machine machine)
            counts="$counts $count"
        done
    done
    # shellcheck disable=SC2086 # one word a count
    columns colours $counts
}

list_lines() {
    echo "| operation | 1989 | 2008 | Rust 1989 | Rust 2008 | ratio |"
    echo "|---|---|---|---|---|---|"
    counts=
    for by in "" rust-; do
        for list in 1989 2008; do
            count=$(instructions "${by}animation" $list list)
            counts="$counts $count"
        done
    done
    # shellcheck disable=SC2086 # one word a count
    columns animation $counts
}

row_lines() {
    echo "| width of a row packed | library | Rust | ratio |"
    echo "|---|---|---|---|"
    for width in 1 2 4 8 16 32 48 64 80 96 112 128; do
        library=$(instructions pack-row "$screen" $width)
        rust=$(instructions rust-pack-row "$screen" $width)
        columns $width "$library" "$rust"
    done
}

pictures=
plates=
scans=
spectrums=
legends=
machines=
lists=
case "$*" in
"")
    pictures="packed-read records tiny-read form3-write to-elite to-plain"
    pictures="$pictures lines-in lines-out screen-in screen-out tally pond raw-read"
    plates="plate-read plate-write"
    scans=img-read
    spectrums="spu-read spc-read spectrum-lines"
    legends="set-entry release-entry"
    machines=colours
    lists=animation
    ;;
pack-row) ;;
*)
    for operation; do
        case $operation in
        plate-*) plates="$plates $operation" ;;
        img-read) scans=img-read ;;
        spu-read | spc-read | spectrum-lines) spectrums="$spectrums $operation" ;;
        *-entry) legends="$legends $operation" ;;
        colours) machines=colours ;;
        animation) lists=animation ;;
        *) pictures="$pictures $operation" ;;
        esac
    done
    ;;
esac

echo "instructions per call, screen $screen; ratio: library / Rust"
if [ "$*" = pack-row ]; then
    echo
    row_lines
fi
# shellcheck disable=SC2086 # one word an operation
if [ -n "$pictures" ]; then
    echo
    picture_lines $pictures
fi
# shellcheck disable=SC2086
if [ -n "$plates" ]; then
    echo
    plate_lines $plates
fi
if [ -n "$scans" ]; then
    echo
    scan_lines
fi
# shellcheck disable=SC2086
if [ -n "$spectrums" ]; then
    echo
    spectrum_lines $spectrums
fi
# shellcheck disable=SC2086
if [ -n "$legends" ]; then
    echo
    legend_lines $legends
fi
if [ -n "$machines" ]; then
    echo
    machine_lines
fi
if [ -n "$lists" ]; then
    echo
    list_lines
fi

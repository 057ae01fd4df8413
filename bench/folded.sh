#!/usr/bin/env bash
# Runs guests that nest under a table of their own, and prints the steps per second of each: one that fences and
# enters its guest anew every 14 steps, and one with two kernels that take turns. Then it prints what a fill of a
# cached translation costs, in spaces of 16 and of 256 entries.
# Usage: bench/folded.sh [STEPS]     (2,000,000 if left out; at most 4,294,967,296)
# It takes the proved program (bench/common.sh).
set -eu
cd "$(dirname "$0")/.."
steps=${1:-2000000}
. bench/common.sh

cp bench/endless/fences.bin bench/endless/kernels.bin "$folder"

# pages IMAGE STRIDE END: the nested guest reads a byte at each of these addresses from 2000 on, again and again
pages() {
    cp bench/endless/pages.bin "$folder/$1.bin"
    put "$1" 0x408 8 "$2" "$3"
}

configure fences 1 "$steps" 1 16
[ -x "$program" ] || run >"$folder/output"
timed "a fence and an entry every 14 steps" run
configure kernels 1 "$steps" 2 16
timed "two kernels" run

# A space of E entries takes the entry of the code E reads after its fill: E + 1 fills are E reads. The pages that are
# read in turn are so numerous that each read is of a page without an entry.
pages same 0 0
for entries in 16 256; do
    configure same 1 "$steps" 1 "$entries"
    timed "reads of one page, entries: $entries" run
    without=$taken
    count=$((entries + 64))
    pages each 0x1000 $((0x2000 + count * 0x1000))
    configure each 1 "$steps" 1 "$entries"
    timed "reads of $count pages in turn, entries: $entries" run
    awk -v ns=$((taken - without)) -v steps="$made" -v count=$count -v entries="$entries" \
        'BEGIN { fills = steps * count / (3 * count + 2) * (entries + 1) / entries
                 printf "a fill, entries: %d: %.2f us\n", entries, ns / fills / 1e3 }'
done

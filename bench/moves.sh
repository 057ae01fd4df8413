#!/usr/bin/env bash
# Prints what it costs that a block of RAM moves after each turn: of a guest whose eight spaces of 16 or of 256 entries
# are full, in microseconds a move, and of a guest with two nested kernels, in steps a second of turns of 10,000.
# All times are of the processor, so that what else runs on the machine counts little.
# Usage: bench/moves.sh [STEPS]     (20,000,000 if left out; at most 4,294,967,296)
# It takes the proved program (bench/common.sh). With gcc it also times bench/copy.c, which copies and clears 2 MiB.
set -eu
cd "$(dirname "$0")/.."
steps=${1:-20000000}
. bench/common.sh
exec 3>&2

# clocked COMMAND..: the same as that of common.sh, by the processor's time for the command and for the system
clocked() {
    local TIMEFORMAT='%U %S' spent
    spent=$({ time "$@" >"$folder/output" 2>&3; } 2>&1)
    taken=$(awk '{ printf "%.0f", ($1 + $2) * 1e9 }' <<<"$spent")
}

cp bench/endless/spaces.bin bench/endless/kernels.bin "$folder"

# With its code each nested guest has as many pages as a space has entries. The first turn fills them all.
for entries in 16 256; do
    put spaces 0x408 8 $((0x1000 + entries * 0x1000))
    spare=
    configure spaces 1 10000 8 "$entries"
    [ -x "$program" ] || run >"$folder/output"
    timed "eight spaces, entries: $entries, no moves" run
    without=$taken
    spare=1
    configure spaces 1 10000 8 "$entries"
    timed "eight spaces, entries: $entries, a move a turn" run
    awk -v ns=$((taken - without)) -v moves=$((made / 10000)) -v entries="$entries" \
        'BEGIN { printf "a move, entries: %d: %.0f us\n", entries, ns / moves / 1e3 }'
done
if command -v gcc >/dev/null; then
    gcc -O2 -o "$folder/copy" bench/copy.c
    count=$((made / 10000))
    clocked "$folder/copy" "$count"
    awk -v ns="$taken" -v count="$count" 'BEGIN { printf "a copy and a clear in plain C: %.0f us\n", ns / count / 1e3 }'
fi
for spare in '' 1; do
    configure kernels 1 10000 2 16
    timed "two kernels in turns of 10,000, spare blocks: ${spare:-none}" run
done

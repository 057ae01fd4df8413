#!/usr/bin/env bash
# Prints what it costs to save a guest of one block and to go on from the file, beside `cat` of that file to another one:
# of a guest that has stopped, and of one with eight full spaces of 256 entries and 65,536 unread inputs. The goal is
# less than three times that of `cat`. All times are of the processor, so that what else runs on the machine counts
# little; each is the mean of COUNT calls, with the start of the process.
# Usage: bench/save.sh [COUNT]     (200 if left out)
# It takes the proved program (bench/common.sh).
set -eu
cd "$(dirname "$0")/.."
count=${1:-200}
steps=10000
. bench/common.sh
exec 3>&2

# repeated COMMAND..: `taken` is how many nanoseconds a call takes of the processor. What the last one writes is in `output`
repeated() {
    local TIMEFORMAT='%U %S' spent i
    spent=$({ time for ((i = 0; i < count; i++)); do "$@" >"$folder/output" 2>&3; done; } 2>&1)
    taken=$(awk -v count="$count" '{ printf "%.0f", ($1 + $2) * 1e9 / count }' <<<"$spent")
}

# beside NAME COMMAND..: what a command takes beside `cat`
beside() {
    local name=$1
    shift
    repeated "$@"
    awk -v name="$name" -v ns="$taken" -v beside="$cat" \
        'BEGIN { printf "%s: %.2f ms, %.2f times cat\n", name, ns / 1e6, ns / beside }'
}

# measure NAME: saves the guest of the configuration, and goes on from the file, with no step more
measure() {
    "$program" save "$folder/run.toml" 0 >"$folder/saved"
    printf 'format = 2\nturns = []\n[[guest]]\nname = "g0"\nresume = "%s"\n' "$folder/saved" >"$folder/on.toml"
    repeated cat "$folder/saved"
    cat=$taken
    awk -v name="$1" -v ns="$cat" -v bytes="$(wc -c <"$folder/saved")" \
        'BEGIN { printf "%s, cat of %d bytes: %.2f ms\n", name, bytes, ns / 1e6 }'
    beside "$1, save" "$program" save "$folder/run.toml" 0
    cmp "$folder/output" "$folder/saved"
    beside "$1, resume" "$program" run "$folder/on.toml"
    beside "$1, resume and save" "$program" save "$folder/on.toml" 0
    cmp "$folder/output" "$folder/saved"
}

spare=0
put stops 0 4 0x00800893 0x73 # li a7, 8; ecall
configure stops 1 10000 1 16
[ -x "$program" ] || {
    run >"$folder/output"
    program=$(tools/program)
}
measure 'one that has stopped'

# With its code each nested guest has as many pages as a space has entries, and the 10,000 steps fill them all. The
# inputs come at the last moment.
cp bench/endless/spaces.bin "$folder"
put spaces 0x408 8 $((0x1000 + 256 * 0x1000))
printf '\377\377\377\377\377\377\377\077A' >"$folder/inputs"
for ((i = 0; i < 16; i++)); do
    cat "$folder/inputs" "$folder/inputs" >"$folder/more"
    mv "$folder/more" "$folder/inputs"
done
configure spaces 1 10000 8 256
printf 'input = "%s"\n' "$folder/inputs" >>"$folder/run.toml"
"$program" save "$folder/run.toml" 0 >"$folder/full"
printf 'format = 2\nturns = []\n[[guest]]\nname = "g0"\nresume = "%s"\n' "$folder/full" >"$folder/run.toml"
measure 'one with full lists'

#!/usr/bin/env bash
# Runs two images of bench/endless and prints the steps per second of each: one jump to itself, and a loop under Sv39
# that stores to its own table; each as one guest and as sixteen, in turns of 1 step, of 1,000, and of all.
# Usage: bench/steps.sh [STEPS]     (10,000,000 if left out; at most 4,294,967,296)
# It takes the proved program (bench/common.sh). With gcc it also times bench/loop.c, the first loop in plain C.
set -eu
cd "$(dirname "$0")/.."
steps=${1:-10000000}
. bench/common.sh

cp bench/endless/loop.bin bench/endless/sv39.bin "$folder"

configure loop 1 "$steps" 1 16
[ -x "$program" ] || run >"$folder/output"

for image in loop sv39; do
    for guests in 1 16; do
        for quantum in 1 1000 $((steps / guests)); do
            configure "$image" "$guests" "$quantum" 1 16
            timed "$image, guests: $guests, steps a turn: $quantum" run
        done
    done
done
made=$steps
if command -v gcc >/dev/null; then
    gcc -O2 -o "$folder/loop" bench/loop.c
    timed "plain C" "$folder/loop" "$steps"
fi

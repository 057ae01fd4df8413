#!/usr/bin/env bash
# Runs the generated guests of seed 1, of size 1,000 and of size 10,000, and prints for each the seconds, the steps a
# second and the most memory, by GNU time (apt-get install time); then how many times as long the larger takes, with
# ten times the commands. It ends with status 1 where two runs differ, or where size 10,000 gives other steps and sums
# than another program has given.
# Usage: bench/work.sh
# It takes the proved program (bench/common.sh).
set -eu
cd "$(dirname "$0")/.."
steps=0
. bench/common.sh

# work SIZE: the program's output, and in `memory` its most memory in KiB
work() {
    if [ -x "$program" ]; then
        /usr/bin/time -v -o "$folder/time" "$program" work 1 "$1"
    else
        (cd crates/nesthv && rt run -- work 1 "$1")
    fi
}

# measured SIZE: runs it twice, and prints what the second run took
measured() {
    work "$1" >"$folder/first"
    made=$(awk '/^guest/ { sum += $5 } END { print sum }' "$folder/first")
    timed "work 1 $1" work "$1"
    cmp "$folder/first" "$folder/output"
    if [ -e "$folder/time" ]; then
        sed -n 's/^\tMaximum resident set size (kbytes): /  most memory in KiB: /p' "$folder/time"
    fi
}

measured 1000
small=$taken
measured 10000
awk -v small="$small" -v large="$taken" 'BEGIN { printf "ten times the size takes %.2f times as long\n", large / small }'
diff "$folder/output" - <<'TEXT'
work 1 10000
guest g0 stopped steps 182461 bytes 10000 sum 709365
guest g1 stopped steps 182562 bytes 10000 sum 707437
guest g2 stopped steps 182496 bytes 10000 sum 709157
guest g3 stopped steps 182555 bytes 10000 sum 707330
TEXT

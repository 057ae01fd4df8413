#!/usr/bin/env bash
# Boots the Linux with KVM that examples/linux/make has built, to its end: under the proved program, under QEMU as a
# user would start it, and under QEMU one instruction at a time (apt-get install qemu-system-misc). It prints million
# steps a second of each, by the steps that the program counts, and the seconds that each took: the processor's time,
# the best of three, less that of an image that stops at once. Without QEMU it prints the program's line alone. What is
# typed comes at the start, so that none of them waits for it.
# Usage: bench/linux.sh [FOLDER [PROGRAM]]
# FOLDER is that of examples/linux/make: ~/.cache/nesthv-linux if left out. It takes PROGRAM, or, where that is left
# out, the proved program (bench/common.sh). The status is 1 where a run does not come to the end.
set -eu
made=${1:-${XDG_CACHE_HOME:-$HOME/.cache}/nesthv-linux}
[ $# -lt 1 ] || [ "${1#-}" != "$1" ] || made=$(realpath "$1")
[ $# -lt 2 ] || given=$(realpath "$2")
cd "$(dirname "$0")/.."
. bench/common.sh
program=${given:-$program}
runs=3
if ! [ -f "$made/linux.toml" ]; then
    echo "$made has no Linux: examples/linux/make builds it" >&2
    exit 2
fi
cp "$made/linux.toml" "$folder"
ln -s "$made/linux.bin" "$folder/linux.bin"
sed 's/^[0-9]* "/0 "/' examples/linux/typed.txt | tools/inputs - "$folder/typed.inputs"

cp bench/programs/stop.bin "$folder"
sed 's/linux.bin/stop.bin/' "$made/linux.toml" >"$folder/stop.toml"

# nesthv, translated, single: one run of a configuration on this machine
nesthv() {
    (cd "$folder" && "$program" run "$1")
}

translated() {
    tools/qemu-run --plain --seconds 600 "$folder/$1"
}

single() {
    tools/qemu-run --plain --single --seconds 600 "$folder/$1"
}

# processed MACHINE CONFIG: `taken` is the least of the milliseconds that `runs` runs take of the processor
processed() {
    local run TIMEFORMAT='%U %S'
    taken=
    for ((run = 0; run < runs; run++)); do
        { time "$1" "$2" >"$folder/output" 2>"$folder/errors"; } 2>"$folder/time"
        taken=$(awk -v least="$taken" '{ ms = ($1 + $2) * 1000; print least != "" && least < ms ? least : ms }' \
            "$folder/time")
    done
}

# best MACHINE NAME: a line of its best run
best() {
    local empty
    processed "$1" stop.toml
    empty=$taken
    processed "$1" linux.toml
    steps=${steps:-$(awk 'NR == 1 { print $5 }' "$folder/output")}
    if [ "$(grep -ac 'stopped after calls' "$folder/output")" -ne 2 ]; then
        echo "$2: the boot does not come to its end: $(tail -n 1 "$folder/output" | tr -d '\r')"
        cat "$folder/errors" >&2
        exit 1
    fi
    awk -v name="$2" -v steps="$steps" -v ms="$taken" -v empty="$empty" \
        'BEGIN { net = ms - empty; if (net <= 0) net = 1; printf "%-44s%10.2f%10.2f\n", name, steps / net / 1000, net / 1000 }'
}

steps=
printf '%-44s%10s%10s\n' 'million steps a second, and seconds' steps seconds
best nesthv nesthv
if command -v "${QEMU:-qemu-system-riscv64}" >/dev/null; then
    best translated 'QEMU'
    best single 'QEMU, one instruction at a time'
fi

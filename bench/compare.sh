#!/usr/bin/env bash
# Runs the images of bench/programs under the proved program and under QEMU (apt-get install qemu-system-misc), and
# prints million steps a second: of the program; of QEMU, as a user would start it; of QEMU, one instruction at a
# time; and how many times as fast as each of these two the program is. Each time is the best of three, less that of
# an image that stops at once. Without QEMU it prints the program's column alone.
# An image prints a checksum. The script ends with status 1 where it is another under QEMU, or, of a program in C, in
# a build by cc for the machine at hand, or where a guest does not stop.
# Usage: bench/compare.sh [MILLIONS [PROGRAM]]     (some 40 million steps an image if left out; at most 2,000)
# The two images with the most fences make a tenth of the steps. QEMU makes 40 million in a tenth of a second or less,
# and starts in about as long, so its column is good to a tenth; with 400 it is good to a hundredth.
# It takes PROGRAM, or, where that is left out, the proved program (bench/common.sh).
set -eu
[ $# -lt 2 ] || given=$(realpath "$2")
cd "$(dirname "$0")/.."
millions=${1:-40}
most=4294967296
. bench/common.sh
program=${given:-$program}
console=16
wrong=0
runs=3

# Which machines there are: the program, and QEMU in two ways.
machines=(nesthv)
if command -v "${QEMU:-qemu-system-riscv64}" >/dev/null; then
    machines+=(plain single)
else
    echo "no ${QEMU:-qemu-system-riscv64} here: the program alone"
fi

# image NAME ROUNDS: the image `run.bin` is that of bench/programs, to make ROUNDS rounds
image() {
    cp "bench/programs/$1.bin" "$folder/run.bin"
    put run 8 8 "$2"
}

# emulate MACHINE: QEMU on `run.bin`. `taken` is how many nanoseconds it took
emulate() {
    local options=(--plain --time --seconds 3600)
    [ "$1" = plain ] || options+=(--single)
    taken=
    if ! tools/qemu-run "${options[@]}" "$folder/run.bin" >"$folder/output" 2>"$folder/errors"; then
        cat "$folder/errors" >&2
        exit 2
    fi
    taken=$(awk '$1 == "ns" { print $2 }' "$folder/errors")
}

# agree NAME WHO TEXT: the checksum that this one gives must be that of the image
agree() {
    checksum=${checksum:-$3}
    if [ "$checksum" != "$3" ]; then
        echo "$1: the checksum is $checksum, and $3 by $2"
        wrong=1
    fi
}

# timed_on NAME MACHINE: one run. `taken` is how many nanoseconds it takes, and of the program `made` how many steps
timed_on() {
    if [ "$2" != nesthv ]; then
        emulate "$2"
        agree "$1" QEMU "$(cat "$folder/output")"
        return
    fi
    clocked run
    made=$(awk 'NR == 1 { print $5 }' "$folder/output")
    if ! grep -q '^guest g0 stopped .* bytes 16$' "$folder/output"; then
        echo "$1: $(head -n 1 "$folder/output")"
        wrong=1
    fi
    agree "$1" nesthv "$(sed -n 2p "$folder/output")"
}

# keep MACHINE: `best` has the least of its times
keep() {
    if [ -z "${best[$1]:-}" ] || ((taken < best[$1])); then
        best[$1]=$taken
    fi
}

# row NAME: what `best` and `made` come to
row() {
    local machine net=
    for machine in "${machines[@]}"; do
        net+=" $((${best[$machine]:-0} - ${empty[$machine]:-0}))"
    done
    awk -v name="$1" -v steps="$made" -v net="$net" 'BEGIN {
        count = split(net, ns)
        line = sprintf("%-44s", name)
        for (i = 1; i <= count; i++)
            line = line (ns[i] > 0 ? sprintf("%10.2f", steps * 1000 / ns[i]) : sprintf("%10s", "-"))
        for (i = 2; i <= count; i++)
            line = line (ns[1] > 0 && ns[i] > 0 ? sprintf("%10.3f", ns[i] / ns[1]) : sprintf("%10s", "-"))
        print line }'
}

# measured NAME IMAGE ROUNDS: `runs` runs on each machine, in turn
measured() {
    local machine i
    checksum=
    declare -gA best=()
    if [ -e "bench/programs/$2.c" ] && command -v cc >/dev/null; then
        cc -O2 -o "$folder/native" bench/programs/native.c "bench/programs/$2.c"
        agree "$1" cc "$("$folder/native" "$3")"
    fi
    image "$2" "$3"
    steps=$most
    configure run 1 "$most" 2 16
    for ((i = 0; i < runs; i++)); do
        for machine in "${machines[@]}"; do
            timed_on "$1" "$machine"
            keep "$machine"
        done
    done
}

# compared NAME IMAGE ROUNDS: its row
compared() {
    measured "$@"
    row "$1"
}

# alone NAME GUESTS QUANTUM: the loop of bench/endless, under the program alone: GUESTS guests, in turns of QUANTUM
# steps
alone() {
    local machines=(nesthv) i
    declare -gA best=()
    steps=$((millions * 1000000))
    configure loop "$2" "$3" 1 16
    for ((i = 0; i < runs; i++)); do
        clocked run
        keep nesthv
    done
    row "$1"
}

cp bench/endless/loop.bin "$folder"
image stop 1
steps=$most
configure run 1 "$most" 2 16
if ! [ -x "$program" ]; then
    run >"$folder/output"
    program=$(tools/program || true)
fi

declare -A best empty=()
runs=9 measured stop stop 1
for machine in "${machines[@]}"; do
    empty[$machine]=${best[$machine]}
done

header=('million steps a second, best of three' nesthv)
if [ ${#machines[@]} -gt 1 ]; then
    "${QEMU:-qemu-system-riscv64}" --version | head -n 1
    echo "'single' is QEMU one instruction at a time; 'by' is how many times as fast as it nesthv is"
    header+=(QEMU single 'by QEMU' 'by single')
fi
printf '%-44s' "${header[0]}"
printf '%10s' "${header[@]:1}"
echo
compared 'jumps' jump "$millions"
compared 'CRC-32' crc32 "$millions"
compared 'heapsort' sort "$millions"
compared 'matrix product' matrix "$millions"
compared 'string search' search "$millions"
compared 'records, strings and calls' records "$millions"
compared 'Sv39: a store to the table of each load' tables "$millions"
compared 'the same, with SFENCE.VMA' tables_fenced $(((millions + 9) / 10))
compared 'two nested kernels under Sv39' kernels "$millions"
compared 'a fence and an entry every 14 steps' fences "$millions"
alone 'one jump to itself' 1 $((millions * 1000000))
alone 'the same, turns of 1 step' 1 1
alone 'the same, sixteen guests' 16 $((millions * 1000000 / 16))
alone 'the same, sixteen guests, turns of 1,000' 16 1000
exit $wrong

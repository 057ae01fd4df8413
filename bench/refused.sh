#!/usr/bin/env bash
# Refuses each allocation, read and write of the program in turn, and lets each read and write move one byte alone: of
# `run` on examples/first, of `replay` on its report, of `check` on it, of `work 0 1`, of `save` of its guest, and of
# `run` and `save` of the guest that goes on from there. It prints a line for each answer that is not the one that the
# contract has, and at the end how many calls were refused; it ends with status 1 where there was such a line.
#   an allocation: status 5, its line, and nothing on the output; or as if nothing was refused
#   a read: status 3 and the line of a read, whose numbers do not fall from call to call
#   a write: status 4, its line, and a front of the output
#   a write of a line: the status of a configuration that is refused, and no line
#   a read or write of one byte: as if nothing was refused
# Usage: bench/refused.sh [PROGRAM]
# It takes the proved program (tools/program) if none is named, and a C compiler (CC, or cc).
set -eu
case ${1:-} in
-h | --help) sed -n '2,/^set/{/^#/s/^# \{0,1\}//p}' "$0" && exit ;;
esac
cd "$(dirname "$0")/.."
program=$(realpath "${1:-$(tools/program)}")
folder=$(mktemp -d)
trap 'rm -rf "$folder"' EXIT
"${CC:-cc}" -O1 -fPIC -shared -o "$folder/refused.so" bench/refused.c -ldl
cp examples/first/*.toml examples/first/*.bin "$folder"
cd "$folder"
"$program" run first.toml >report
printf 'format = 3\n' >wrong.toml
"$program" save first.toml 0 >saved
printf 'format = 2\nturns = [[0, 5]]\n[[guest]]\nname = "a"\nresume = "saved"\n' >resumed.toml
wrong=0
calls=0

# said TEXT: counts and prints an answer that is not the contract's
said() {
    wrong=$((wrong + 1))
    echo "$*"
}

# answered NAME WORDS..: runs the program with call $number of $kind refused; `status`, `out` and `err` are what it left
answered() {
    local name=$1
    shift
    rm -f mark
    status=0
    REFUSED_CALL=$kind REFUSED_NUMBER=$number REFUSED_MARK=mark LD_PRELOAD=$folder/refused.so \
        "$program" "$@" >out 2>err || status=$?
    what="$name: $kind $number: status $status, $(stat -c %s out) bytes, $(head -c 100 err)"
}

# is_whole: whether the answer is that of a run without a refusal
is_whole() {
    [ "$status" = "$usual" ] && cmp -s out wanted && [ ! -s err ]
}

# is_line LINE: whether this line alone was written to standard error
is_line() {
    printf '%s\n' "$1" | cmp -s - err
}

# is_front: whether the output is a front of the wanted one
is_front() {
    head -c "$(stat -c %s out)" wanted | cmp -s - out
}

# is_right: whether the answer is one of the contract's
is_right() {
    case $kind in
    alloc) is_whole || { [ "$status" = 5 ] && [ ! -s out ] && is_line 'nesthv: out of memory'; } ;;
    read)
        local fault
        fault=$(sed -n 's/^nesthv: read fault \([0-9]*\)$/\1/p' err)
        [ "$status" = 3 ] && [ ! -s out ] && is_line "nesthv: read fault $fault" && [ "$fault" -ge "$last" ] &&
            [ "$fault" -le "$reads" ] && last=$fault
        ;;
    write) [ "$status" = 4 ] && is_line 'nesthv: write fault' && is_front && ! cmp -s out wanted ;;
    line) [ "$status" = "$usual" ] && cmp -s out wanted && [ ! -s err ] ;;
    short-read | short-write) is_whole ;;
    esac
}

# swept KIND NAME WORDS..: refuses every call of this kind in turn, until none is left
swept() {
    kind=$1
    local name=$2
    shift 2
    last=1
    for ((number = 1; number <= 100000; number++)); do
        answered "$name" "$@"
        if [ ! -e mark ]; then
            is_whole || [ "$kind" = line ] || said "$what, and nothing was refused"
            return
        fi
        calls=$((calls + 1))
        is_right || said "$what"
    done
    said "$name: $kind: more than 100000 calls"
}

# tried NAME READS WORDS..: each kind of call, of a command that makes READS reads
tried() {
    local name=$1 kinds
    reads=$2
    shift 2
    usual=0
    "$program" "$@" >wanted || usual=$?
    for kinds in alloc read write short-read short-write; do
        swept "$kinds" "$name" "$@"
    done
}

tried run 2 run first.toml
tried replay 3 replay first.toml report
tried check 2 check first.toml
tried work 0 work 0 1
tried save 2 save first.toml 0
tried 'run from a save' 2 run resumed.toml
tried 'save from a save' 2 save resumed.toml 0
# A line that cannot be written.
usual=2
: >wanted
swept line 'run of a wrong configuration' run wrong.toml
echo "$calls calls refused, $wrong answers that are not the contract's"
[ "$wrong" = 0 ]

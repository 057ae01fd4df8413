#!/usr/bin/env bash
# Runs the proved program on files, streams and limits of memory that fail, on the system as it is: a full device, a
# closed pipe, a closed output, a folder for a file, a file without leave to read, names that are long or not UTF-8, a
# REPORT of 64 MiB, an image that grows while it is read, saves that are cut, and less and less memory. It prints a line for each answer
# that is not the one that the contract has, and ends with status 1 where there was one.
# Usage: bench/hostile-outside.sh [PROGRAM]
# It takes the proved program (tools/program) if none is named. Memory is limited by `ulimit -v`. Where it is run as
# root, the file without leave is read as `nobody`, by setpriv.
set -eu
case ${1:-} in
-h | --help) sed -n '2,/^set/{/^#/s/^# \{0,1\}//p}' "$0" && exit ;;
esac
cd "$(dirname "$0")/.."
program=$(realpath "${1:-$(tools/program)}")
folder=$(mktemp -d)
chmod 755 "$folder"
trap 'rm -rf "$folder"' EXIT
cp examples/first/first.toml examples/first/first.bin "$folder"
cp "$program" "$folder/nesthv"
program=$folder/nesthv
cd "$folder"
"$program" run first.toml >report
tries=0
wrong=0

# ended NAME STATUS LINE: compares what a call left with what is wanted: its status, and its line or none
ended() {
    tries=$((tries + 1))
    if [ "$status" != "$2" ] || ! { if [ -n "$3" ]; then printf '%s\n' "$3"; fi; } | cmp -s - err; then
        wrong=$((wrong + 1))
        echo "$1: status $status, $(head -c 200 err)"
    fi
}

# silent NAME: whether the output is empty
silent() {
    if [ -s out ]; then
        wrong=$((wrong + 1))
        echo "$1: $(stat -c %s out) bytes of output"
    fi
}

# refused NAME STATUS LINE WORDS..: a call that writes nothing to its output
refused() {
    local name=$1 wanted=$2 line=$3
    shift 3
    status=0
    "$program" "$@" >out 2>err || status=$?
    ended "$name" "$wanted" "$line"
    silent "$name"
}

# configured NAME: the configuration whose image has this name
configured() {
    sed "s|^image = .*|image = \"$1\"|" first.toml >named.toml
}

# given NAME: the configuration in format 2 whose input file has this name
given() {
    sed "s|^format = 1|format = 2|; \$a input = \"$1\"" first.toml >named.toml
}

# resumed NAME: the configuration of a guest that goes on from the file of this name, with no step more
resumed() {
    printf 'format = 2\nturns = []\n[[guest]]\nname = "a"\nresume = "%s"\n' "$1" >resumed.toml
}

# Outputs that fail. `check` has two pieces, and `replay` one.
for words in 'run first.toml' 'check first.toml' 'replay first.toml report' 'work 0 1' 'save first.toml 0'; do
    read -ra list <<<"$words"
    status=0
    "$program" "${list[@]}" >/dev/full 2>err || status=$?
    ended "$words to a full device" 4 'nesthv: write fault'
    status=0
    "$program" "${list[@]}" >&- 2>err || status=$?
    ended "$words to a closed output" 4 'nesthv: write fault'
    # The reader has ended before the program begins. A pipe without a reader also sends a signal, which ends a program
    # that does not ignore it; then the shell has status 141.
    status=$(exec 3>&1; { sleep 0.2; s=0; "$program" "${list[@]}" 2>err || s=$?; echo "$s" >&3; } | true)
    case $status in
    141) ;;
    *) ended "$words to a closed pipe" 4 'nesthv: write fault' ;;
    esac
    status=0
    "$program" "${list[@]}" >out 2>/dev/full || status=$?
    : >err
    ended "$words with a full error output" 0 ''
done
status=0
"$program" run none.toml >out 2>/dev/full || status=$?
: >err
ended 'a fault with a full error output' 3 ''
status=0
"$program" run none.toml >out 2>&- || status=$?
ended 'a fault with a closed error output' 3 ''

# Files that are not there, folders, files without leave, and names.
mkdir -p place
long=$(printf 'n%.0s' $(seq 255))
longer=$long'n'
cp first.toml "$long"
cp first.bin "$(printf 'i%.0s' $(seq 251)).bin"
refused 'no configuration' 3 'nesthv: read fault 1' run none.toml
refused 'a folder as configuration' 3 'nesthv: read fault 1' run place
refused 'a name that the system refuses' 3 'nesthv: read fault 1' run "$longer"
refused 'a name that is not UTF-8' 1 \
    'nesthv: usage: run CONFIG | replay CONFIG REPORT | check CONFIG | work SEED SIZE | save CONFIG GUEST' \
    run $'\xff\xfe'
refused 'a report that is not there' 3 'nesthv: read fault 3' replay first.toml none
refused 'a folder as report' 3 'nesthv: read fault 3' replay first.toml place
for name in none.bin place; do
    configured "$name"
    refused "$name as image" 3 'nesthv: read fault 2' run named.toml
    refused "$name as image of a check" 3 'nesthv: read fault 2' check named.toml
    refused "$name as image of a replay" 3 'nesthv: read fault 2' replay named.toml report
done
for name in none.inputs place; do
    given "$name"
    refused "$name as input file" 3 'nesthv: read fault 3' run named.toml
    refused "$name as input file of a check" 3 'nesthv: read fault 3' check named.toml
    refused "$name as input file of a replay" 3 'nesthv: read fault 3' replay named.toml report
done
for name in none.saved place; do
    resumed "$name"
    refused "$name as saved file" 3 'nesthv: read fault 2' run resumed.toml
    refused "$name as saved file of a check" 3 'nesthv: read fault 2' check resumed.toml
    refused "$name as saved file of a save" 3 'nesthv: read fault 2' save resumed.toml 0
    refused "$name as saved file of a replay" 3 'nesthv: read fault 2' replay resumed.toml report
done
given /dev/null
refused 'a folder as report behind an input file' 3 'nesthv: read fault 4' replay named.toml place
status=0
"$program" run named.toml >out 2>err || status=$?
ended 'an empty input file' 0 ''
cmp -s out report || { wrong=$((wrong + 1)); echo 'an empty input file: another report'; }
configured "$(printf 'i%.0s' $(seq 252)).bin"
refused 'an image name of 256 bytes' 2 'nesthv: configuration fault 4 guest 0 key image' run named.toml
for words in "run $long" "check $long"; do
    read -ra list <<<"$words"
    status=0
    "$program" "${list[@]}" >out 2>err || status=$?
    ended 'a name of 255 bytes' 0 ''
done
configured "$(printf 'i%.0s' $(seq 251)).bin"
status=0
"$program" run named.toml >out 2>err || status=$?
ended 'an image name of 255 bytes' 0 ''
cp first.toml kept.toml
chmod 000 kept.toml
if [ "$(id -u)" = 0 ]; then
    read_as() { setpriv --reuid=65534 --regid=65534 --clear-groups "$@"; }
else
    read_as() { "$@"; }
fi
status=0
read_as "$program" run kept.toml >out 2>err || status=$?
ended 'a configuration without leave' 3 'nesthv: read fault 1'
silent 'a configuration without leave'

# A configuration without end, a REPORT of 64 MiB, and one that is longer by a byte.
refused 'a configuration without end' 2 'nesthv: configuration fault 9' run /dev/zero
truncate -s 64M big
cp report longer
printf '\n' >>longer
for pair in 'big 0' "longer $(stat -c %s report)" '/dev/null 0'; do
    status=0
    "$program" replay first.toml "${pair% *}" >out 2>err || status=$?
    ended "${pair% *} as report" 6 ''
    if [ "$(cat out)" != "differs at ${pair#* }" ]; then
        wrong=$((wrong + 1))
        echo "${pair% *} as report: $(head -c 100 out)"
    fi
done

# An image that another program lengthens meanwhile: it fits, and runs, or is too long, and is refused.
configured growing.bin
for _ in $(seq 20); do
    cp first.bin growing.bin
    for _ in $(seq 40); do head -c 100000 /dev/zero >>growing.bin; done &
    status=0
    "$program" run named.toml >out 2>err || status=$?
    wait
    if [ "$status" = 0 ]; then
        ended 'an image that grows' 0 ''
        cmp -s out report || { wrong=$((wrong + 1)); echo 'an image that grows: another report'; }
    else
        ended 'an image that grows' 2 'nesthv: configuration fault 10 guest 0 value 2097153'
        silent 'an image that grows'
    fi
done
configured /dev/zero
refused 'an image without end' 2 'nesthv: configuration fault 10 guest 0 value 2097153' run named.toml
given /dev/zero
refused 'an input file without end' 2 'nesthv: configuration fault 12 guest 0 value 65536' run named.toml

# Saved files that are none, and saves that are cut: by a reader that ends, and by a program that is ended in the middle.
for name in /dev/zero /dev/null first.bin big; do
    resumed "$name"
    refused "$name as saved file" 2 'nesthv: configuration fault 14 guest 0' run resumed.toml
done
"$program" save first.toml 0 >saved
mkfifo pipe
resumed cut.saved
for length in 1 8 608 616 624 625 4096 100000 2000000 2097760; do
    { "$program" save first.toml 0 2>/dev/null || true; } | head -c "$length" >cut.saved
    cmp -s -n "$length" cut.saved saved || { wrong=$((wrong + 1)); echo "a save cut at $length: other bytes"; }
    refused "a save cut at $length" 2 'nesthv: configuration fault 14 guest 0' check resumed.toml
    "$program" save first.toml 0 >pipe 2>/dev/null &
    {
        head -c "$length" <&4 >cut.saved
        kill -KILL $! 2>/dev/null || true
        wait $! 2>/dev/null || true
        cat <&4 >>cut.saved
    } 4<pipe
    head -c "$(stat -c %s cut.saved)" saved | cmp -s - cut.saved ||
        { wrong=$((wrong + 1)); echo "a save ended after $length: other bytes"; }
    if [ "$(stat -c %s cut.saved)" != "$(stat -c %s saved)" ]; then
        refused "a save ended after $length" 2 'nesthv: configuration fault 14 guest 0' check resumed.toml
    fi
done
resumed saved
status=0
"$program" save resumed.toml 0 >out 2>err || status=$?
ended 'a save from a save' 0 ''
cmp -s out saved || { wrong=$((wrong + 1)); echo 'a save from a save: other bytes'; }

# Less and less memory: the whole output or, with status 5, none of it.
for words in 'run first.toml' 'check first.toml' 'replay first.toml report' 'replay first.toml big' 'work 0 1' \
    'save first.toml 0' 'run resumed.toml' 'save resumed.toml 0'; do
    read -ra list <<<"$words"
    usual=0
    "$program" "${list[@]}" >wanted || usual=$?
    short=0
    for ((size = 200000; size > 1500; size = size * 97 / 100)); do
        status=0
        # Below some size the system itself does not start a program: it ends by a signal, or the shell says so.
        (ulimit -v "$size" && exec "$program" "${list[@]}") >out 2>err || status=$?
        if ((status >= 126)); then
            break
        fi
        if [ "$status" = "$usual" ]; then
            ended "$words in $size KiB" "$usual" ''
            cmp -s out wanted || { wrong=$((wrong + 1)); echo "$words in $size KiB: another output"; }
        else
            short=$((short + 1))
            ended "$words in $size KiB" 5 'nesthv: out of memory'
            silent "$words in $size KiB"
        fi
    done
    echo "$words: ran out of memory at $short sizes"
done
echo "$tries answers, $wrong that are not the contract's"
[ "$wrong" = 0 ]

# shellcheck shell=bash disable=SC2154 # each script sets `steps`
# What the scripts of this folder share; they source it after they set `steps`. `program` is the proved program that
# tools/program names. Where there is none, `rt run` proves all crates and builds it, which takes long; where a proof
# fails, the script ends with that status.
case ${1:-} in
-h | --help) sed -n '2,/^set/{/^#/s/^# \{0,1\}//p}' "bench/$(basename "$0")" && exit ;;
esac
program=$(tools/program || true)
console=0
spare=
folder=$(mktemp -d)
trap 'rm -rf "$folder"' EXIT

# put IMAGE OFFSET WIDTH NUMBER...: writes numbers of WIDTH bytes each, little endian, from this offset of an image
# on; what is left out is zero
put() {
    local image=$1 offset=$2 width=$3 number i bytes=
    shift 3
    for number; do
        for ((i = 0; i < width; i++)); do
            bytes+=$(printf '\\x%02x' $((number >> 8 * i & 255)))
        done
    done
    printf %b "$bytes" | dd of="$folder/$image.bin" bs=1 seek=$((offset)) conv=notrunc status=none
}

# configure IMAGE GUESTS QUANTUM SPACES ENTRIES: GUESTS guests with this image, which make `steps` steps together, in
# turns of QUANTUM steps; at most 2^20 turns. Each has a console of `console` bytes, and there are `spare` spare blocks,
# where it names a number. `made` is how many steps they make
configure() {
    local guest rounds=$((steps / ($2 * $3)))
    if ((rounds * $2 > 1048576)); then
        rounds=$((1048576 / $2))
    fi
    made=$((rounds * $2 * $3))
    local head='format = 1'
    if [ -n "$spare" ]; then
        head="format = 2"$'\n'"spare = $spare"
    fi
    printf '%s\nquantum = %d\nrounds = %d\n' "$head" "$3" "$rounds" >"$folder/run.toml"
    for ((guest = 0; guest < $2; guest++)); do
        cat >>"$folder/run.toml" <<TOML
[[guest]]
name = "g$guest"
image = "$folder/$1.bin"
blocks = 1
spaces = $4
entries = $5
console = $console
TOML
    done
}

# clocked COMMAND..: `taken` is how many nanoseconds the command takes. What it writes is in the file `output`
clocked() {
    local from to
    from=$(date +%s%N)
    "$@" >"$folder/output"
    to=$(date +%s%N)
    taken=$((to - from))
}

# timed NAME COMMAND..: the seconds that the command takes, its steps a second, and what it writes on the first line
timed() {
    local name=$1
    shift
    clocked "$@"
    awk -v name="$name" -v steps="$made" -v ns="$taken" -v said="$(head -n 1 "$folder/output")" \
        'BEGIN { printf "%s: %.3f s, %.0f steps/s (%s)\n", name, ns / 1e9, steps * 1e9 / ns, said }'
}

# run: the program on what `configure` wrote. `rt run` answers the program's own status, which is 0 here, and another
# where a proof fails.
run() {
    if [ -x "$program" ]; then
        "$program" run "$folder/run.toml"
    else
        (cd crates/nesthv && rt run -- run "$folder/run.toml")
    fi
}

#!/usr/bin/env bash
# Writes the log of two kernels that nest and take turns, for each of these kinds apart, and prints the steps per
# second; for steps also the lines per second.
# Usage: bench/trace.sh [STEPS]     (10,000,000 if left out; at most 4,294,967,296)
# It takes nesthv-trace beside the proved program (bench/common.sh), else the one that `rt run` has built.
set -eu
cd "$(dirname "$0")/.."
steps=${1:-10000000}
. bench/common.sh

cp bench/endless/kernels.bin "$folder"
configure kernels 1 "$steps" 2 16
tracer=$(dirname "$program")/nesthv-trace
[ -x "$tracer" ] || tracer=crates/nesthv_trace/out/nesthv_trace
if ! [ -x "$tracer" ]; then
    echo "bench/trace.sh: there is no nesthv-trace: \`rt run\` in crates/nesthv_trace builds it" >&2
    exit 2
fi

for kinds in traps,worlds traps,worlds,calls,fences fills stale counts steps; do
    timed "$kinds" "$tracer" "$folder/run.toml" 0 "$kinds"
    if [ "$kinds" = steps ]; then
        awk -v lines="$(wc -l <"$folder/output")" -v ns="$taken" \
            'BEGIN { printf "steps: %.0f lines/s\n", lines * 1e9 / ns }'
    fi
done

#!/bin/sh
# Times IovaTree::translate over 64 and 100,000 mappings, and prints ns a call: the median of five runs, less
# the median of five that only fill the tree. Builds the program first. It tests nothing.
# usage: bench/translate.sh [TURNS]   (default 20,000,000)
set -eu
cd "$(dirname "$0")/../crates/vd_bench"
turns=${1:-20000000}
rt run -- translate 1 1 >/dev/null 2>&1
program=$PWD/out/vd_bench

# the median of five times, in ns
median() {
    for run in 1 2 3 4 5; do
        start=$(date +%s%N)
        "$program" translate "$1" "$2" >/dev/null
        end=$(date +%s%N)
        echo $((end - start))
    done | sort -n | sed -n 3p
}

echo "# $(uname -m), load $(cut -d' ' -f1-3 /proc/loadavg), $turns turns"
for mappings in 64 100000; do
    fill=$(median "$mappings" 0)
    all=$(median "$mappings" "$turns")
    echo "$mappings mappings: $(awk "BEGIN { printf \"%.1f\", ($all - $fill) / $turns }") ns a call, filled in $((fill / 1000)) us"
done

#!/usr/bin/env bash
# Runs the load of crates/heap_bench once over the proved heap and once over each of Rust's collections,
# compares what they print, and prints each time as a ratio to the proved heap's. Build the program first: (cd crates/heap_bench && rt run).
set -euo pipefail
here=$(cd "$(dirname "$0")" && pwd)
root=$(cd "$here/../.." && pwd)
work=$(mktemp -d)
trap 'rm -rf "$work"' EXIT
rustc -O "$here/baseline.rs" -o "$work/baseline"

# Prints the nanoseconds that a command takes; what it writes goes to the file named first.
clock() {
    local out=$1 start end
    shift
    start=$(date +%s%N)
    "$@" >"$out"
    end=$(date +%s%N)
    echo $((end - start))
}

heap=$(clock "$work/heap" "$root/crates/heap_bench/out/heap_bench")
tree=$(clock "$work/tree" "$work/baseline" tree)
lazy=$(clock "$work/lazy" "$work/baseline" lazy)
cmp "$work/heap" "$work/tree"
cmp "$work/heap" "$work/lazy"
cat "$work/heap"
ratio() { awk -v a="$1" -v b="$2" 'BEGIN { printf "%.2f\n", a / b }'; }
echo "proved indexed heap      1.00"
echo "BTreeSet                 $(ratio "$tree" "$heap")"
echo "BinaryHeap, lazy removal $(ratio "$lazy" "$heap")"

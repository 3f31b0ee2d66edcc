#!/bin/bash
# Processor time of the programs and of the plain model on sheets of growing size, side by side.
# time.sh RIGCOBASE ACCEPTING [RUNS]
here=$(cd "$(dirname "$0")" && pwd)
rigcobase=$1 accepting=$2 runs=${3:-50}
plain=$here/target/release
sheets=$(mktemp -d)
trap 'rm -rf "$sheets"' EXIT
(cd "$here" && cargo build --release --quiet) || exit 1
"$plain/sheets" "$sheets"
TIMEFORMAT='%U %S'
# the processor time of so many runs, in milliseconds a run
cost() { { time for _ in $(seq "$runs"); do "$@" > /dev/null; done; } 2>&1 | awk -v n="$runs" '{ printf "%.2f", 1000 * ($1 + $2) / n }'; }
printed() { "$1" < "$2"; }
printf '%8s %12s %12s %8s %12s %12s %8s\n' nodes print plain ratio check plain ratio
for nodes in 100 200 400 700 1000; do
    sheet=$sheets/$nodes.sheet readings=$sheets/$nodes.readings
    a=$(cost printed "$rigcobase" "$sheet")
    b=$(cost printed "$plain/print" "$sheet")
    c=$(cost "$accepting" "$sheet" "$readings")
    d=$(cost "$plain/accept" "$sheet" "$readings")
    awk -v n="$nodes" -v a="$a" -v b="$b" -v c="$c" -v d="$d" 'BEGIN { printf "%8d %12s %12s %8.2f %12s %12s %8.2f\n", n, a, b, a / b, c, d, c / d }'
done

#!/bin/sh
# Builds crates/speed and the plain Rust program, runs them in turn, and prints for each row the best time of both per
# turn (or file), turns (or files) per second, and the ratio; then the rows of turns as the table of docs/performance.md,
# with how the time of a turn grows: 16 levels against one, divided by 16, so that 1 says that it grows as the levels do.
# The results of both must be the same.
# Usage: bench/run.sh [RUNS]      (RUNS of each program, 5 if not said)
set -eu
cd "$(dirname "$0")/.."
runs=${1:-5}
out=target/bench
mkdir -p "$out"
if [ "${BUILD:-yes}" = yes ]; then
    (cd crates/speed && rt run) > "$out/check.log" 2>&1 || { tail -3 "$out/check.log"; exit 1; }
fi
rustc --edition 2024 -C opt-level=3 -o "$out/visit" bench/visit.rs
rm -f "$out"/*.times
i=0
while [ "$i" -lt "$runs" ]; do
    crates/speed/out/speed full > "$out/speed.out" 2>> "$out/speed.times"
    "$out/visit" full > "$out/visit.out" 2>> "$out/visit.times"
    i=$((i + 1))
done
# Sizes differ, since the two compilers lay out fields in another order.
for program in speed visit; do
    grep -v '^bytes ' "$out/$program.out" > "$out/$program.results"
    grep '^bytes ' "$out/$program.out" | sed "s/^/$program: /"
done
cmp "$out/speed.results" "$out/visit.results"
echo "same results: $(wc -l < "$out/speed.results") lines"
awk '
    # The rows of one load, host and regime in one line: ns (ratio) for each number of levels, millions of turns per second
    # at one level and at 16, and the growth.
    function table(rows,    i, load, level, line) {
        print "\n| what | over | regime | 1 level | 2 | 4 | 8 | 16 | million turns per s | growth |\n|---|---|---|---|---|---|---|---|---|---|"
        for (i = 1; i <= rows; i++) {
            load = order[i]
            if (!sub(/ 1$/, "", load)) continue
            line = load
            gsub(/ /, " | ", line)
            for (level = 1; level <= 16; level *= 2)
                line = line sprintf(" | %.1f (%.2f)", a[load " " level] / count[load " " level], a[load " " level] / b[load " " level])
            printf "| %s | %.0f to %.0f | %.2f |\n", line, turns(load " 1"), turns(load " 16"), a[load " 16"] / a[load " 1"] / 16
        }
    }
    function turns(row) { return count[row] * 1e3 / a[row] }
    { row = $1 " " $2 " " $3 " " $4; count[row] = $5 }
    FNR == NR { if (!(row in a)) order[++rows] = row; if (!(row in a) || $6 < a[row]) a[row] = $6; next }
    { if (!(row in b) || $6 < b[row]) b[row] = $6 }
    END {
        printf "%-32s %12s %12s %14s %14s %6s\n", "what", "rattle ns", "rust ns", "rattle per s", "rust per s", "ratio"
        for (i = 1; i <= rows; i++) {
            r = order[i]
            n = count[r]
            printf "%-32s %12.1f %12.1f %14.0f %14.0f %6.2f\n", r, a[r] / n, b[r] / n, n * 1e9 / a[r], n * 1e9 / b[r], a[r] / b[r]
        }
        table(rows)
    }' "$out/speed.times" "$out/visit.times"

#!/bin/sh
# Instructions that one call of `lay_out` takes at 4,096 terminals, by callgrind: the program is run once to lay out the plan and
# once to make it only, and the difference is told. Run from anywhere; it proves and builds the program first where that is not
# done. Not part of the gate.
cd "$(dirname "$0")/../crates/plan_bench" || exit 1
[ -x out/plan_bench ] || rt run >/dev/null 2>&1 || exit 1
count() {
    valgrind --tool=callgrind --callgrind-out-file=/dev/null out/plan_bench "$@" 2>&1 | sed -n 's/.*Collected : *//p'
}
tell() {
    printf '| %-9s | %-8s | %14s |\n' "$1" "$2" "$(( $(count large "$1" $3) - $(count large "$1" $3 idle) ))"
}
printf '| %-9s | %-8s | %14s |\n' shape links instructions
printf '|%s|%s|%s|\n' ----------- ---------- ----------------
for shape in fan zigzag balanced scattered; do
    tell $shape shuffled shuffled
    tell $shape preorder ''
done
tell none '-' ''

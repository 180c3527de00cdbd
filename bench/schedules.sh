#!/usr/bin/env bash
# How long the steps of a script take in `atl compile`: 500 and 1,000 steps on a module of 20,000 nodes, and one step, as the hundredth part of
# a hundred, on modules of 5,000, 10,000 and 20,000 nodes. Each step swaps two sums at a place near the root. Times are seconds of processor time, the least of three, from which
# the time of the same source under a script without steps is taken; the exponent is that of growth from the first to the last, 1 where it is
# linear. A program that is built already may be named as the argument. With `instructions` as the second one, instructions are counted in place of
# seconds, by valgrind, which are the same whatever else the machine does; that takes some minutes.
set -eu
top=$(cd "$(dirname "$(readlink -f "$0")")/.." && pwd)
work=$(mktemp -d)
trap 'rm -rf "$work"' EXIT
program=${1:-$top/crates/atl_cli/out/atl_cli}
counted=${2:-seconds}
[ $# -gt 0 ] || "$top/atl" compile "$top/examples/scale.atl" >/dev/null
ulimit -s unlimited 2>/dev/null || ulimit -s "$(ulimit -H -s)" 2>/dev/null || true

# A source of about so many nodes: two sums to be swapped, and beside them a sum of sums, halved again and again, since chains would grow deeper
# with their size.
source_of() {
  awk -v nodes="$1" '
    # a sum, of six nodes with the addition that it stands in
    function part(n) { return "(sum i < N. A[i] * " n ")" }
    function tree(n, first) { return n == 1 ? part(first) : "(" tree(int(n / 2), first) " +\n" tree(n - int(n / 2), first + int(n / 2)) ")" }
    BEGIN {
      print "atl 1; size N in 0..8; example N = 3; input A[N];"
      print "output B = (sum i < N. sum j < N. A[i] * A[j]) +\n" tree(int(nodes / 6) - 2, 0) ";"
    }'
}

# A script of so many steps.
script_of() {
  awk -v steps="$1" 'BEGIN { print "schedule 1;"; for (k = 0; k < steps; k++) print "at 0.0 do swap_sum;" }'
}

# How many instructions a compilation has, in millions.
instructions() {
  valgrind --tool=cachegrind --cache-sim=no --cachegrind-out-file=/dev/null --main-stacksize=900000000 \
    "$program" compile "$work/source.atl" "$work/script.sched" 2>&1 >"$work/text.c" | awk '/I *refs/ { gsub(",", "", $NF); print $NF / 1000000 }'
}

# The least processor time, of three, of a compilation.
least() {
  if [ "$counted" = instructions ]; then instructions; return; fi
  for _ in 1 2 3; do
    ( TIMEFORMAT='%U %S'; time "$program" compile "$work/source.atl" "$work/script.sched" >"$work/text.c" ) 2>&1 | awk '{ print $1 + $2 }'
  done | sort -g | head -n 1
}

# The time of so many steps on the source.
steps_of() {
  script_of 0 >"$work/script.sched"
  without=$(least)
  script_of "$1" >"$work/script.sched"
  with=$(least)
  awk -v a="$with" -v b="$without" 'BEGIN { print a - b }'
}

source_of 20000 >"$work/source.atl"
printf '%-28s %9s %9s %9s\n' 'steps on 20,000 nodes' 500 1000 exponent
echo "$(steps_of 500) $(steps_of 1000)" |
  awk '{ e = ($1 > 0 && $2 > 0) ? sprintf("%.2f", log($2 / $1) / log(2)) : "-"; printf "%-28s %9.3f %9.3f %9s\n", "", $1, $2, e }'

printf '%-28s %9s %9s %9s %9s\n' 'nodes, for one of 100 steps' 5000 10000 20000 exponent
line=
for nodes in 5000 10000 20000; do
  source_of "$nodes" >"$work/source.atl"
  line="$line $(steps_of 100)"
done
echo "$line" |
  awk '{ e = ($1 > 0 && $3 > 0) ? sprintf("%.2f", log($3 / $1) / log(4)) : "-"; printf "%-28s %9.5f %9.5f %9.5f %9s\n", "", $1 / 100, $2 / 100, $3 / 100, e }'

#!/usr/bin/env bash
# How long `atl compile` takes on sources of 2,500, 5,000, 10,000 and 20,000 nodes: a wide sum of loops, many lets, and words of long index
# expressions. Times are seconds of processor time, the least of three; the exponent is that of growth from the smallest to the largest, 1
# where it is linear. Beside it, where gcc is there, the time of `gcc -fsyntax-only` on the C text of the largest. At the end the time of the
# smallest source of all beside that of a process that does nothing. A program that is built already may be named as the argument.
set -eu
top=$(cd "$(dirname "$(readlink -f "$0")")/.." && pwd)
work=$(mktemp -d)
trap 'rm -rf "$work"' EXIT
program=${1:-$top/crates/atl_cli/out/atl_cli}
[ $# -gt 0 ] || "$top/atl" compile "$top/examples/scale.atl" >/dev/null
ulimit -s unlimited 2>/dev/null || ulimit -s "$(ulimit -H -s)" 2>/dev/null || true

# A source of about so many nodes: a sum, halved again and again, of parts of one kind. Chains would grow deeper with their size, and
# what a node costs grows with its depth, of which 200 are allowed.
source_of() {
  awk -v kind="$1" -v nodes="$2" '
    # a loop, of six nodes with the sum that it stands in
    function wide(n) { return "(gen i < N. A[i] * " n ")" }
    # twenty-one lets inside one another, of 165 nodes
    function lets(n,  k, text) { text = "(let t = A in "
      for (k = 0; k < 20; k++) text = text "let t = gen i < N. t[i] * t[i] in "
      return text "t)\n" }
    # a word of an index expression with twenty-one atoms, of two nodes
    function indices(n,  k, text) { text = "word(i"
      for (k = 0; k < 20; k++) text = text sprintf("+%d*%c", 1 + (n + k) % 9, 65 + k)
      return text ")" }
    function part(n) { return kind == "wide" ? wide(n) : kind == "lets" ? lets(n) : indices(n) }
    function tree(n, first) { return n == 1 ? part(first) : "(" tree(int(n / 2), first) " +\n" tree(n - int(n / 2), first + int(n / 2)) ")" }
    BEGIN {
      if (kind == "indices") {
        print "atl 2;"
        for (k = 0; k < 20; k++) printf "size %c in 0..8;\n", 65 + k
        for (k = 0; k < 20; k++) printf "%s %c = 1", k ? "," : "example", 65 + k
        print ";\noutput Z = gen i < A. " tree(int((nodes - 1) / 2), 0) ";"
      } else {
        print "atl 1; size N in 0..8; example N = 3; input A[N];"
        print "output B = " tree(int(nodes / (kind == "wide" ? 6 : 165)), 0) ";"
      }
    }'
}

# the processor time of a command that is run so many times, by run
spent() {
  ( TIMEFORMAT='%U %S'; runs=$1; shift; time for ((k = 0; k < runs; k++)); do "$@" >/dev/null 2>&1 || true; done ) 2>&1 |
    awk -v runs="$1" '{ print ($1 + $2) / runs }'
}

# the least processor time, of three, of a command, which is run twenty times each where it is short
least() {
  runs=$(spent 1 "$@" | awk '{ print ($1 < 0.1) ? 20 : 1 }')
  for _ in 1 2 3; do spent "$runs" "$@"; done | sort -g | head -n 1
}

printf '%-10s %9s %9s %9s %9s %9s %9s\n' source 2500 5000 10000 20000 exponent gcc
for kind in wide lets indices; do
  line=
  for nodes in 2500 5000 10000 20000; do
    source_of "$kind" "$nodes" >"$work/source.atl"
    "$program" compile "$work/source.atl" >"$work/text.c"
    line="$line $(least "$program" compile "$work/source.atl")"
  done
  gcc_time=-
  if command -v gcc >/dev/null; then gcc_time=$(least gcc -fsyntax-only "$work/text.c"); fi
  echo "$line" | awk -v k="$kind" -v g="$gcc_time" '{ e = ($1 > 0 && $4 > 0) ? sprintf("%.2f", log($4 / $1) / log(8)) : "-"
    printf "%-10s %9.4f %9.4f %9.4f %9.4f %9s %9s\n", k, $1, $2, $3, $4, e, g }'
done

echo 'atl 1; output B = 1;' >"$work/source.atl"
printf 'smallest source %s, empty process %s\n' "$(least "$program" compile "$work/source.atl")" "$(least /bin/true)"

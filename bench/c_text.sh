#!/usr/bin/env bash
# How long C texts take to be read and printed again: printed texts of 4 MB and of 8 MB, one of many statements and one of long indices, by the
# program of the worked rows (`c_reader_rows`). Each text is a canonical one, so what is printed has to be the text itself. Beside it, where gcc is
# there, the time of `gcc -fsyntax-only` on the larger text. Times are seconds of processor time, the least of three runs; the exponent is that of
# growth from half to whole size, 1 where it is linear. A program that is built already may be named as the argument.
set -eu
top=$(cd "$(dirname "$(readlink -f "$0")")/.." && pwd)
work=$(mktemp -d)
trap 'rm -rf "$work"' EXIT
program=${1:-$top/crates/c_reader_rows/out/c_reader_rows}
[ -x "$program" ] || (cd "$top/crates/c_reader_rows" && rt run >/dev/null)

head_of() {
  cat <<'TEXT'
#include <stdint.h>
static int64_t top(int64_t x, int64_t y) { return x > y ? x : y; }
static void fill(uint64_t *p, int64_t at, int64_t n) { for (int64_t i = 0; i < n; i = i + 1) p[at + i] = 0; }
int64_t len_a0(int64_t n0) { return n0; }
int64_t len_b0(int64_t n0) { return n0; }
void atl(int64_t n0, const uint64_t *a0, uint64_t *b0) {
TEXT
}

# many loops of one statement
statements() {
  head_of
  awk -v bytes="$1" 'BEGIN { line = "  for (int64_t i0 = INT64_C(0); i0 < n0; i0 = i0 + INT64_C(1)) {\n    b0[i0] += a0[n0 - i0 - INT64_C(1)] * UINT64_C(2) + UINT64_C(1);\n  }\n"
    for (used = 400; used + length(line) <= bytes; used += length(line)) printf "%s", line
    print "}" }'
}

# statements whose indices and words are chains of 900 operators
chains() {
  head_of
  awk -v bytes="$1" 'BEGIN { for (n = 0; n < 900; n++) { index_of = index_of " + n0"; word = word " - a0[n0]" }
    line = "  b0[INT64_C(0)" index_of "] = UINT64_C(7)" word ";\n"
    for (used = 400; used + length(line) <= bytes; used += length(line)) printf "%s", line
    print "}" }'
}

# the least processor time of three runs of a command
least() {
  for _ in 1 2 3; do
    ( TIMEFORMAT='%U %S'; time "$@" >/dev/null 2>&1 ) 2>&1 | awk '{ print $1 + $2 }'
  done | sort -g | head -n 1
}

printf '%-14s %9s %9s %9s %9s\n' text half whole exponent gcc
for kind in statements chains; do
  "$kind" 4194304 >"$work/half.c"
  "$kind" 8388608 >"$work/whole.c"
  for size in half whole; do
    "$program" "$work/$size.c" | tail -n +2 | cmp - "$work/$size.c"
  done
  half=$(least "$program" "$work/half.c")
  whole=$(least "$program" "$work/whole.c")
  gcc_time=-
  if command -v gcc >/dev/null; then gcc_time=$(least gcc -fsyntax-only "$work/whole.c"); fi
  awk -v k="$kind" -v h="$half" -v w="$whole" -v g="$gcc_time" \
    'BEGIN { e = (h > 0 && w > 0) ? sprintf("%.2f", log(w / h) / log(2)) : "-"; printf "%-14s %9.3f %9.3f %9s %9s\n", k, h, w, e, g }'
done

#!/usr/bin/env bash
# How long runs take. First a matrix product of N rows and columns, of 2 N^3 steps and some: `atl run`, `atl exec` on its C text, the same C text
# compiled by `gcc -O0` with a main function that reads the same given text and prints the same lines, and the same loops in Python, each where it is
# there; what they print has to be the same. Then the sum of the words of given texts of a quarter, a half and a whole megabyte, and trials of 4, 8
# and 16 steps. Times are seconds of processor time, the least of three; exponents are those of growth with the steps, with the bytes, and with the
# steps of the script, 1 where it is linear. A program that is built already may be named as the argument.
set -eu
top=$(cd "$(dirname "$(readlink -f "$0")")/.." && pwd)
work=$(mktemp -d)
trap 'rm -rf "$work"' EXIT
program=${1:-$top/crates/atl_cli/out/atl_cli}
[ $# -gt 0 ] || "$top/atl" compile "$top/examples/scale.atl" >/dev/null
ulimit -s unlimited 2>/dev/null || ulimit -s "$(ulimit -H -s)" 2>/dev/null || true

# the least processor time, of three, of a command whose text goes to a file
least() {
  out=$1
  shift
  for _ in 1 2 3; do
    ( TIMEFORMAT='%U %S'; time "$@" >"$out" ) 2>&1 | awk '{ print $1 + $2 }'
  done | sort -g | head -n 1
}

# Sizes and words for a product, under the names that are given.
given_of() {
  awk -v n="$1" -v names="$2" 'BEGIN {
    split(names, name, " ")
    for (k = 1; k <= 3; k++) printf "%s: %d;\n", name[k], n
    for (k = 4; k <= 5; k++) { printf "%s:", name[k]; for (i = 0; i < n * n; i++) printf " %d", (i * k + 3) % 10; print ";" }
  }'
}

cat >"$work/main.c" <<'TEXT'
#include <stdio.h>
#include <stdlib.h>
#include "text.c"
static uint64_t *numbers(const char *name, int64_t n) {
  uint64_t *p = malloc((n + 1) * 8);
  unsigned long long word;
  scanf(" %*[^:]:");
  for (int64_t i = 0; i < n; i++) {
    if (scanf("%llu", &word) != 1) { fprintf(stderr, "%s\n", name); exit(1); }
    p[i] = word;
  }
  scanf(" ;");
  return p;
}
int main(int count, char **words) {
  if (count < 2 || !freopen(words[1], "r", stdin)) return 1;
  int64_t n = numbers("n0", 1)[0], k = numbers("n1", 1)[0], m = numbers("n2", 1)[0];
  uint64_t *a0 = numbers("a0", len_a0(n, k, m)), *a1 = numbers("a1", len_a1(n, k, m)), *b0 = malloc((len_b0(n, k, m) + 1) * 8);
  atl(n, k, m, a0, a1, b0);
  printf("B:");
  for (int64_t i = 0; i < len_b0(n, k, m); i++) printf(" %llu", (unsigned long long)b0[i]);
  printf(";\n");
  return 0;
}
TEXT

cat >"$work/loops.py" <<'TEXT'
import re, sys
given = {name: [int(word) for word in words.split()] for name, words in re.findall(r"(\w+):([^;]*);", open(sys.argv[1]).read())}
n, k, m, a, c = given["N"][0], given["K"][0], given["M"][0], given["A"], given["C"]
b = [0] * (n * m)
for i in range(n):
    for j in range(m):
        for h in range(k):
            b[i * m + j] = (b[i * m + j] + a[i * k + h] * c[h * m + j]) & 0xFFFFFFFFFFFFFFFF
print("B:" + "".join(f" {word}" for word in b) + ";")
TEXT

# the lines of two runs are the same, but for the number of stores, which only some print, and the names of outputs
same() {
  cmp <(head -n 1 "$1" | cut -d: -f2) <(head -n 1 "$2" | cut -d: -f2)
}

exponent() {
  awk -v a="$1" -v b="$2" -v by="$3" 'BEGIN { print (a > 0 && b > 0) ? sprintf("%.2f", log(b / a) / log(by)) : "-" }'
}

echo 'schedule 1;' >"$work/none.sched"
product=$top/examples/matrix_product.atl
"$program" compile "$product" >"$work/text.c"
has_gcc=
if command -v gcc >/dev/null; then gcc -O0 -w "$work/main.c" -o "$work/compiled" && has_gcc=1; fi
printf '%-8s %12s %9s %9s %9s %9s %9s\n' product steps run exponent exec 'gcc -O0' python
before=0
for n in 100 200 400; do
  given_of "$n" 'N K M A C' >"$work/words.given"
  given_of "$n" 'n0 n1 n2 a0 a1' >"$work/c.given"
  run=$(least "$work/run.txt" "$program" run "$product" "$work/none.sched" "$work/words.given")
  exec=$(least "$work/exec.txt" "$program" exec "$work/text.c" "$work/c.given")
  same "$work/run.txt" "$work/exec.txt"
  compiled=- python=-
  if [ -n "$has_gcc" ]; then
    compiled=$(least "$work/compiled.txt" "$work/compiled" "$work/c.given")
    same "$work/run.txt" "$work/compiled.txt"
  fi
  if [ "$n" -le 200 ] && command -v python3 >/dev/null; then
    python=$(least "$work/python.txt" python3 "$work/loops.py" "$work/words.given")
    same "$work/run.txt" "$work/python.txt"
  fi
  printf '%-8s %12s %9.3f %9s %9.3f %9s %9s\n' "$n" "$(awk -v n="$n" 'BEGIN { print 2 * n * n * n + 2 * n * n + n }')" "$run" "$(exponent "$before" "$run" 8)" \
    "$exec" "$compiled" "$python"
  before=$run
done

echo 'atl 1; size N in 0..1048576; example N = 1; input A[N]; output B = sum i < N. A[i];' >"$work/sum.atl"
printf '%-8s %12s %9s %9s\n' given bytes run exponent
before=0
for words in 32500 65000 130000; do
  awk -v n="$words" 'BEGIN { printf "N: %d;\nA:", n; for (i = 0; i < n; i++) printf " %d", 1000000 + i; print ";" }' >"$work/words.given"
  run=$(least "$work/run.txt" "$program" run "$work/sum.atl" "$work/none.sched" "$work/words.given")
  printf '%-8s %12s %9.4f %9s\n' "$words" "$(wc -c <"$work/words.given")" "$run" "$(exponent "$before" "$run" 2)"
  before=$run
done

printf '%-8s %12s %9s %9s\n' trial stores run exponent
before=0
for k in 4 8 16; do
  run=$(least "$work/run.txt" "$program" trial "$k")
  printf '%-8s %12s %9.4f %9s\n' "$k" "$(sed 's/.* stores \([0-9]*\) .*/\1/' "$work/run.txt")" "$run" "$(exponent "$before" "$run" 2)"
  before=$run
done

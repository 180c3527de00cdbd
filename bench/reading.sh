#!/usr/bin/env bash
# How long `atl compile` takes on sources of a megabyte, at half and at whole size: one of as many declarations as fit, one of a single
# term with long index expressions, one that is nearly all white space and comments. Beside it, where gcc is there, the time of
# `gcc -fsyntax-only` on a C text of as many bytes. Times are seconds of processor time, the least of three runs; the exponent is that of
# growth from half to whole size, 1 where it is linear.
set -eu
top=$(cd "$(dirname "$(readlink -f "$0")")/.." && pwd)
work=$(mktemp -d)
trap 'rm -rf "$work"' EXIT
"$top/atl" compile "$top/examples/scale.atl" >/dev/null
program=$top/crates/atl_cli/out/atl_cli

# so many declarations of inputs, each of 13 bytes or more
declarations() {
  awk -v bytes="$1" 'BEGIN { text = "atl 1;\n"; printf "%s", text; used = length(text) + 16
    for (n = 0; used + 16 <= bytes; n++) { line = sprintf("input a%06d;\n", n); printf "%s", line; used += length(line) }
    print "output B = 1;" }'
}

# one term of sums of reads, each of an index expression that fills what is left of the bytes
term() {
  awk -v bytes="$1" -v reads=6600 'BEGIN { print "atl 1;\nsize N in 0..8;\nexample N = 3;\ninput A[9];\noutput B = gen i < N. ("
    each = int((bytes - 100) / reads) - 12
    for (n = 0; n < reads; n++) { if (n) printf (n % 70) ? " + " : ") + ("
      printf "A[i"; for (used = 1; used + 8 <= each; used += 8) printf " + i - i"; print "]" }
    print ");" }'
}

# white space and comments around a small source
spaces() {
  awk -v bytes="$1" 'BEGIN { print "atl 1;"; line = "# " sprintf("%60s", "") "\n\t  \n"
    for (used = 30; used + length(line) <= bytes; used += length(line)) printf "%s", line
    print "output B = 1;" }'
}

# a C text of as many bytes
c_text() {
  awk -v bytes="$1" 'BEGIN { for (n = 0; used + 20 <= bytes; n++) { line = sprintf("int a%06d;\n", n); printf "%s", line; used += length(line) } }'
}

# the least processor time of three runs of a command
least() {
  for _ in 1 2 3; do
    ( TIMEFORMAT='%U %S'; time "$@" >/dev/null 2>&1 || true ) 2>&1 | awk '{ print $1 + $2 }'
  done | sort -n | head -n 1
}

printf '%-14s %9s %9s %9s %9s\n' source half whole exponent gcc
for kind in declarations term spaces; do
  "$kind" 524288 >"$work/half.atl"
  "$kind" 1048576 >"$work/whole.atl"
  half=$(least "$program" compile "$work/half.atl")
  whole=$(least "$program" compile "$work/whole.atl")
  gcc_time=-
  if command -v gcc >/dev/null; then
    c_text "$(wc -c <"$work/whole.atl")" >"$work/text.c"
    gcc_time=$(least gcc -fsyntax-only "$work/text.c")
  fi
  awk -v k="$kind" -v h="$half" -v w="$whole" -v g="$gcc_time" \
    'BEGIN { e = (h > 0 && w > 0) ? sprintf("%.2f", log(w / h) / log(2)) : "-"; printf "%-14s %9.3f %9.3f %9s %9s\n", k, h, w, e, g }'
done

#!/usr/bin/env bash
# Compiles the printed C of every example and of some rows with gcc, runs it, and compares what it leaves with what the sources denote
# (c_text.py). It is skipped, with a word, where something that it needs is missing. The built program may be named as the argument.
top=$(cd "$(dirname "$(readlink -f "$0")")/.." && pwd) || exit 1
program=${1:-$top/crates/atl_cli/out/atl_cli}
work=$(mktemp -d) || exit 1
trap 'rm -rf "$work"' EXIT

skipped() {
  echo "C text: skipped, $1"
  exit 0
}

command -v gcc >/dev/null || skipped "there is no gcc"
command -v python3 >/dev/null || skipped "there is no python3"
[ -x "$program" ] || skipped "the program is not built"
export ASAN_OPTIONS=detect_leaks=0
echo 'int main(void) { return 0; }' >"$work/empty.c"
gcc -fsanitize=address,undefined "$work/empty.c" -o "$work/empty" 2>/dev/null && "$work/empty" 2>/dev/null ||
  skipped "gcc has no sanitizers here"
python3 "$top/checks/c_text.py" "$program"

#!/bin/sh
# Builds the image of a source and runs it under mono, where that is installed, and compares its output and exit status with those of `cppcli run`:
# run-under-a-cli.sh FILE.cpp [ARG ...]. Ends with 0 where both agree or where there is no mono, 1 where they differ, 2 where the image isn't built.
if [ $# -lt 1 ]; then
  echo "usage: run-under-a-cli.sh FILE.cpp [ARG ...]" >&2
  exit 2
fi
cppcli=$(cd "$(dirname "$0")/.." && pwd)/cppcli
source=$1
shift
if ! command -v mono >/dev/null 2>&1; then
  echo "skipped: mono is not installed"
  exit 0
fi
folder=$(mktemp -d)
trap 'rm -rf "$folder"' EXIT
cp "$source" "$folder/program.cpp" || exit 2
"$cppcli" build "$folder/program.cpp" || exit 2
# the module's own name, under which some loaders look for it
mv "$folder/program.cpp.exe" "$folder/program.exe"
"$cppcli" run "$folder/program.cpp" -- "$@" >"$folder/own.out" 2>"$folder/own.err" </dev/null
own=$?
mono "$folder/program.exe" "$@" >"$folder/cli.out" 2>"$folder/cli.err" </dev/null
cli=$?
if [ "$own" -ne "$cli" ] || ! cmp -s "$folder/own.out" "$folder/cli.out"; then
  echo "differs: cppcli run ended with $own, mono with $cli"
  diff "$folder/own.out" "$folder/cli.out" | head -20
  cat "$folder/cli.err"
  exit 1
fi
echo "agrees: both ended with $own and printed $(wc -c <"$folder/own.out") bytes"

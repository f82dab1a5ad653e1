#!/bin/sh
# Times the proved program over a generated source of so many lines, and over its image: speed.sh [LINES], at most 1,900, since a function has at most 20,000 nodes.
# It prints the milliseconds of each command and, where mono is installed, of its interpreter over the same image; nothing is judged.
lines=${1:-1500}
cppcli=$(cd "$(dirname "$0")/.." && pwd)/cppcli
folder=$(mktemp -d)
trap 'rm -rf "$folder"' EXIT
{
  echo "int main() {"
  at=0
  while [ "$at" -lt "$lines" ]; do
    echo "  System::Console::WriteLine($at * 2 + 1);"
    at=$((at + 1))
  done
  echo "  return 0;"
  echo "}"
} >"$folder/program.cpp"

# what is timed, and its words
timed() {
  what=$1
  shift
  start=$(date +%s%N)
  "$@" >"$folder/out" </dev/null
  status=$?
  end=$(date +%s%N)
  if [ "$status" -ne 0 ]; then
    echo "$what ended with $status"
    exit 1
  fi
  echo "$what: $(((end - start) / 1000000)) ms, $(wc -l <"$folder/out") lines printed"
}

echo "$lines lines, $(wc -c <"$folder/program.cpp") bytes"
timed check "$cppcli" check "$folder/program.cpp"
timed run "$cppcli" run "$folder/program.cpp"
timed build "$cppcli" build "$folder/program.cpp"
echo "image: $(wc -c <"$folder/program.cpp.exe") bytes"
timed dump "$cppcli" dump "$folder/program.cpp.exe"
if command -v mono >/dev/null 2>&1; then
  # the module's own name, under which some loaders look for it
  cp "$folder/program.cpp.exe" "$folder/program.exe"
  timed "mono --interpreter" mono --interpreter "$folder/program.exe"
else
  echo "mono: skipped, it is not installed"
fi

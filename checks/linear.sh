#!/usr/bin/env bash
# What the compiler, not the prover, must refuse of campaigns: a second draw while one is pending, settling one draw twice, and letting a pending campaign go.
# Each program of checks/linear/ breaks one of these rules, and names on its first line the error that has to refuse it.
set -u
top=$(cd "$(dirname "$0")/.." && pwd)
scratch=$(mktemp -d)
trap 'rm -rf "$scratch"' EXIT
needed='spaces numbering prepared engines campaigns'
mkdir "$scratch/crates"
for crate in $needed; do
  cp -r "$top/crates/$crate" "$scratch/crates/$crate"
  rm -rf "$scratch/crates/$crate/must-fail"
done
failed=0
for source in "$top"/checks/linear/*.txt; do
  name=$(basename "$source" .txt)
  error=$(sed -n '1s#^// refused with ##p' "$source")
  mkdir -p "$scratch/crates/$name/src"
  cp "$source" "$scratch/crates/$name/src/lib.rt"
  (grep -E "^(${needed// /|}):" "$top/crates.txt"; echo "$name: $needed") > "$scratch/crates.txt"
  output=$(cd "$scratch/crates/$name" && rt check 2>&1)
  rm -rf "$scratch/crates/$name"
  if grep -qF "error[$error]" <<< "$output"; then
    echo "checks: $name is refused with $error, as it must be"
  else
    echo "checks: $name is not refused with $error:"
    tail -5 <<< "$output"
    failed=1
  fi
done
exit $failed

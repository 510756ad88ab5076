#!/usr/bin/env bash
# Code that must not build: a pass let go, dropped, given back twice or forged. Each file of tools/pass-trials is a crate of
# its own whose first line says whether it builds, or the compiler's error by which it is refused. They are compiled in a copy
# of the sources, against the engine; what is proved already (crates/*/out) is taken over, and else the first trial proves it.
set -uo pipefail
cd "$(dirname "$0")/.."
copy=$(mktemp -d)
trap 'rm -rf "$copy"' EXIT
git init -q "$copy"
tar cf - --exclude=incremental crates crates.txt | tar xf - -C "$copy"
echo 'attempt: arrayvec formats codecs memory outlet model laws cores engine' >> "$copy/crates.txt"
passed=0
failed=0
for file in tools/pass-trials/*.txt; do
  name=$(basename "$file" .txt)
  want=$(head -n 1 "$file" | sed 's|^// ||')
  mkdir -p "$copy/crates/attempt/src"
  cp "$file" "$copy/crates/attempt/src/lib.rt"
  out=$(cd "$copy/crates/attempt" && rt check 2>&1)
  status=$?
  errors=$(printf '%s\n' "$out" | grep -o 'error\[[a-z0-9-]*\]' | sort -u)
  case "$want" in
    builds)
      if [ "$status" -eq 0 ]; then passed=$((passed + 1)); echo "pass trial $name: builds"; else failed=$((failed + 1)); echo "pass trial $name: should build, and does not: $errors"; printf '%s\n' "$out" | tail -n 5; fi ;;
    "refused: "*)
      if [ "$status" -ne 0 ] && [ "$errors" = "error[${want#refused: }]" ]; then passed=$((passed + 1)); echo "pass trial $name: $want"; else failed=$((failed + 1)); echo "pass trial $name: should be $want; status $status, $errors"; printf '%s\n' "$out" | tail -n 5; fi ;;
  esac
done
echo "pass trials: $passed passed, $failed failed"
[ "$failed" -eq 0 ]

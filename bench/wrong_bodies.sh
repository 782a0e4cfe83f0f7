#!/usr/bin/env bash
# Tries the wrong bodies that the gate doesn't: the prover must refuse each edit of wrong_bodies/NAME/, on a clone of
# the last commit.
#
#     bench/wrong_bodies.sh [NAME..]
#
# Without a name those of all crates are tried, which takes about three hours of a processor. The first edit of a crate
# takes as long as the crate's proof, each further one ten seconds to a minute; crates below that the checkout has built
# aren't proved again. The last line is `N passed, M failed`, and the status is 0 if nothing failed.
set -eu
cd "$(dirname "$0")/.."
top=$PWD passed=0 failed=0
[ $# -gt 0 ] || set -- $(cd wrong_bodies && ls)
folder=$(mktemp -d)
trap 'rm -rf "$folder"' EXIT
git clone -q --local . "$folder/clone"
cd "$folder/clone"
rm -rf crates/*/must-fail
for out in "$top"/crates/*/out; do
  [ ! -e "$out/rlib/stamp" ] || cp -a "$out" "crates/$(basename "$(dirname "$out")")/"
done

for name; do
  edits=("$top/wrong_bodies/$name"/*.edit)
  mkdir "crates/$name/must-fail"
  cp "${edits[@]}" "crates/$name/must-fail/"
  rt must-fail "$name" </dev/null 2>&1 | tee "$folder/log" || true
  rm -r "crates/$name/must-fail"
  # A name that rt doesn't know is no failure to it, so what was refused is counted.
  refused=$(grep -c ': refused, as it must be' "$folder/log" || true)
  passed=$((passed + refused)) failed=$((failed + ${#edits[@]} - refused))
done
echo "$passed passed, $failed failed"
[ "$failed" -eq 0 ]

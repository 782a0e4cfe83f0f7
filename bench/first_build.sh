#!/usr/bin/env bash
# Measures the launcher's builds: the time, the processor time and the most disk, of
#
#   - a first build, on a machine that has kept nothing that was proved
#   - a build for x86-64-v2 after it (which differs from it if the processor is of the level x86-64-v3)
#   - `rt ci`, which then has to prove none of the program's crates again
#   - a build after that, as a user's after .ci/run
#
# Builds the last commit, in a clone, with a copy of the kit whose folders are links: a kit keeps what passed next to
# itself, and what this machine has kept is neither read nor changed. With --keep it builds with the kit itself, on a
# machine that has kept nothing yet, and what passes is kept. Ends with status 1 if something fails, or a crate of the
# program is proved a second time. Needs 20 GB in TMPDIR or /tmp.
set -eu -o pipefail
cd "$(dirname "$0")/.."
folder=$(mktemp -d)
# The tests run as another user, who has to find the gate's scratch folder in it.
chmod 711 "$folder"
trap 'kill %% 2>/dev/null || true; rm -rf "$folder"' EXIT
TIMEFORMAT='%R %U %S'
# The kit itself, beside which nothing may be kept yet.
take_kit() {
  kept=$kit-kept
  [ ! -e "$kept" ] || { echo "$0: this machine has kept what is proved: $kept" >&2 && exit 2; }
  mkdir -p "$folder/tmp"
  export TMPDIR=$folder/tmp
}

copy_kit() {
  local part
  kept=$folder/kit
  mkdir -p "$folder/kit/rattle/bin" "$folder/tmp"
  for part in "$kit"/* "$kit"/bin/*; do
    case ${part#"$kit"/} in
      bin) ;;
      bin/rt | bin/*.py) cp -p "$part" "$folder/kit/rattle/bin" ;;
      *) ln -s "$part" "$folder/kit/rattle/${part#"$kit"/}" ;;
    esac
  done
  export PATH=$folder/kit/rattle/bin:$PATH TMPDIR=$folder/tmp
}

# Runs a command in the clone, and prints what it took.
measure() {
  local what=$1 status=0
  shift
  echo 0 >"$folder/most"
  watch_disk &
  (cd "$folder/clone" && time "$@" >"$folder/said" 2>&1) 2>"$folder/took" || status=$?
  kill %%
  wait
  awk -v what="$what" -v most="$(cat "$folder/most")" '
    { printf "%s: %.1f min, %.1f processor minutes, at most %.1f GB\n", what, $1 / 60, ($2 + $3) / 60, most / 1e6 }
  ' "$folder/took"
  [ "$status" -eq 0 ] || { tail -n 20 "$folder/said" >&2; exit 1; }
}

# Notes the most kB that the clone, its scratch folders and what is kept have taken, a file of several names once.
watch_disk() {
  local now
  while sleep 5; do
    now=$(du -sck "$folder/clone" "$folder/tmp" "$kept" 2>/dev/null | awk 'END { print $1 }') || true
    [ "$now" -le "$(cat "$folder/most")" ] || echo "$now" >"$folder/most"
  done
}

kit=$(rt doc)
kit=${kit%/*}
case ${1-} in
  --keep) take_kit ;;
  '') copy_kit ;;
  *) echo "usage: $0 [--keep]" >&2 && exit 2 ;;
esac
git clone -q . "$folder/clone"
export PERKEEP_BUILD=only
measure "a first build" ./perkeep
proved=$(sed -n 's/^perkeep: proved \([a-z_]*\) .*/\1/p' "$folder/said")
PERKEEP_CPU=x86-64-v2 measure "a build for x86-64-v2 after it" ./perkeep
measure "rt ci after these" rt ci
for name in $proved; do
  if grep -qx "rt: $name proved" "$folder/said"; then echo "rt ci has proved $name again" >&2 && exit 1; fi
done
measure "a build after that" ./perkeep

#!/usr/bin/env bash
# Checks whether an archive and its backup have lost anything:
#
#     verify_backup.sh ARCHIVE BACKUP [REFS]
#
# Each blob that ARCHIVE had at the last good check must be found in both folders, so renew BACKUP between checks. At
# the first check, each blob of one folder must be in the other, so make BACKUP just before. Each blob is read and
# checked against its ref; a damaged one isn't found. The list of ARCHIVE's blobs is kept in the file REFS, by default
# ~/.local/state/perkeep/refs. If a loss can't be mended, remove that file to begin a new list.
#
# If a folder lacks such blobs, the script prints how many, and the folder's broken packs. The last line says how many
# blobs of ARCHIVE aren't in BACKUP yet. Neither folder is changed. PERKEEP is the program, if that isn't on the path.
# Needs bash, coreutils, grep and sed.
#
# Status: 0 all are there, 1 some aren't, 2 bad arguments, or it couldn't be done.
set -eu -o pipefail
export LC_ALL=C
perkeep=${PERKEEP:-perkeep}
if [ "${1:-}" = --help ]; then
  sed -n '2,/^set /{/^set /d; s/^# \{0,1\}//; p}' "$0"
  exit 0
fi
if [ $# -lt 2 ] || [ $# -gt 3 ]; then
  echo "verify_backup.sh ARCHIVE BACKUP [REFS]" >&2
  exit 2
fi
archive=$1 backup=$2
kept=${3:-${XDG_STATE_HOME:-$HOME/.local/state}/perkeep/refs}

# Says why it can't be done.
refuse() {
  echo "verify_backup.sh: $1" >&2
  exit 2
}

command -v "$perkeep" >/dev/null || refuse "there is no program $perkeep: set PERKEEP to the path of perkeep"
work=$(mktemp -d)
trap 'rm -rf "$work"' EXIT

# Lists all blobs of a folder. A missing folder, or one without packs, would read as an empty store.
list() {
  [ -d "$1" ] || refuse "$1 isn't a folder, or can't be reached"
  [ -r "$1" ] && [ -x "$1" ] || refuse "$1 can't be read"
  compgen -G "$1/pack-*.blobs" >/dev/null || refuse "$1 has no pack"
  "$perkeep" list "$1" --limit 4194304 || exit 2
}

# The number of lines of a list, as a number of blobs.
blobs() {
  count=$(wc -l <"$1")
  [ "$count" -eq 1 ] && echo "1 blob" || echo "$count blobs"
}

# Prints what a folder lacks, by its list, and where these blobs were seen.
look() {
  comm -23 "$known" "$2" >"$work/lacking"
  if [ -s "$work/lacking" ]; then
    status=1
    echo "$1 lacks $(blobs "$work/lacking") that $3, the first of them $(head -n 1 "$work/lacking")"
    "$perkeep" salvage "$1" | { grep ' broken ' || true; }
  fi
}

list "$archive" >"$work/archive"
list "$backup" >"$work/backup"
status=0
if [ -e "$kept" ]; then
  known=$kept in_archive="$archive had at the last good check" in_backup=$in_archive
else
  known=$work/known in_archive="$archive has" in_backup="$backup has"
  sort -u "$work/archive" "$work/backup" >"$known"
fi
look "$archive" "$work/archive" "$in_backup"
look "$backup" "$work/backup" "$in_archive"
comm -23 "$work/archive" "$work/backup" >"$work/newer"
[ "$(wc -l <"$work/newer")" -eq 1 ] && are="isn't" || are="aren't"
echo "$(blobs "$work/newer") of $archive $are in $backup yet"
if [ "$status" -eq 0 ]; then
  mkdir -p "$(dirname "$kept")"
  cp "$work/archive" "$kept.new"
  mv "$kept.new" "$kept"
fi
exit $status

# The beginning of each bench that runs the program: `program` is its path, and `folder` a scratch folder that is
# removed at the end. It is sourced.
#
# The program is the one that ./perkeep at the top of the repository builds, or the one that PERKEEP names. The launcher
# itself isn't timed: it checks each source before each start.
set -eu
cd "$(dirname "${BASH_SOURCE[0]}")/.."
[ -n "${PERKEEP:-}" ] || PERKEEP_BUILD=only ./perkeep </dev/null
program=$(realpath "${PERKEEP:-crates/perkeep_cli/out/perkeep_cli}")
if [ ! -x "$program" ]; then
  echo "there is no program at $program" >&2
  exit 2
fi
folder=$(mktemp -d)
trap 'rm -rf "$folder"' EXIT
export PYTHONDONTWRITEBYTECODE=1

# The beginning of each script: which program is run, and how. It is sourced.
#
#     tests/NAME.sh [GROUP..]
#
# Without a group all groups of the script are run. The last line is `N passed, M failed`, and the status is 0 if
# nothing failed. A failure is printed with the command that runs its group again.
#
#     PERKEEP=PATH   runs that program; otherwise the launcher ./perkeep builds its own if needed, and that one is run
#     SEED=N         makes other random choices
#     KEEP=1         keeps the folder in which the script works, and prints its path
set -eu
cd "$(dirname "${BASH_SOURCE[0]}")/.."
# the modules that several scripts share
export PYTHONPATH=$PWD/tests/lib

# Ends the script as one failure, before any check was run.
give_up() {
  echo "$1" >&2
  echo "0 passed, 1 failed"
  exit 1
}

# Runs the tests of a name with the arguments of the script.
run_tests() {
  local name=$1
  shift
  if [ -n "${PERKEEP:-}" ]; then
    PERKEEP=$(realpath "$PERKEEP")
    export AGAIN="PERKEEP=$PERKEEP "
  else
    PERKEEP_BUILD=only ./perkeep </dev/null || give_up "the program could not be built"
    PERKEEP=$PWD/crates/perkeep_cli/out/perkeep_cli
  fi
  [ -x "$PERKEEP" ] || give_up "there is no program at $PERKEEP"
  export PERKEEP PYTHONDONTWRITEBYTECODE=1
  exec python3 "tests/$name.py" "$@"
}

# A function that is sourced, at the top of the repository: `program_of NAME PATH WORD..` prints the path of the program
# of crates/NAME, which `rt run -- WORD..` builds if it is missing or older than the sources; or PATH if that isn't
# empty.
program_of() {
  local name=$1 given=$2
  local built=crates/$name/out/$name
  shift 2
  if [ -z "$given" ] && { [ ! -x "$built" ] || [ -n "$(find crates/*/src -newer "$built" -type f -print -quit)" ]; }; then
    (cd "crates/$name" && rt run -- "$@" </dev/null >&2)
    touch "$built"
  fi
  realpath "${given:-$built}"
}

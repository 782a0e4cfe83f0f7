# Sets `program` to the path of the program of crates/lab, which is built if it is missing or older than the sources, or
# to the one that LAB names. It is sourced, at the top of the repository.
. bench/program_of.bash
program=$(program_of lab "${LAB:-}" hash)

# Sets `program` to the path of the program of crates/fault_rows, which is built if it is missing or older than the
# sources, or to the one that FAULT_ROWS names. It is sourced, at the top of the repository.
. bench/program_of.bash
program=$(program_of fault_rows "${FAULT_ROWS:-}" fails clock 0 0 / list d)

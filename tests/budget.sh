#!/usr/bin/env bash
# Checks the repository against the gate's budget (docs/gate.md): crates.txt, the wrong bodies in
# crates/NAME/must-fail/, and the table of minutes of docs/gate.md. Proves nothing and needs no program.
cd "$(dirname "$0")/.." || exit 1
PYTHONDONTWRITEBYTECODE=1 exec python3 tests/budget.py

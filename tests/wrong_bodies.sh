#!/usr/bin/env bash
# Checks that each wrong body, of crates/NAME/must-fail/ and of wrong_bodies/NAME/, still is one changed line of its
# crate, and that docs/gate.md lists those of the gate. Proves nothing and needs no program.
cd "$(dirname "$0")/.." || exit 1
PYTHONDONTWRITEBYTECODE=1 exec python3 tests/wrong_bodies.py

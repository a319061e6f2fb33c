#!/bin/sh
# Tries the wrong bodies that stand beside those of the gate: the edits crates/*/wrong-bodies/*.edit of each crate that is
# named, or of all. The prover has to refuse each. tools/wrong_bodies.py says how they are tried.
# Run it where the contracts of a crate change, and before a release.
#
#   ./wrong-bodies.sh            all crates
#   ./wrong-bodies.sh session    one crate
#   ./wrong-bodies.sh --only always_gone unit_lock     those of a crate, or of all, whose names have the word, also the gate's own
#   ./wrong-bodies.sh --list     tries none: lists all, also the gate's own, and what refuses each where the edit says so
cd "$(dirname "$0")" && exec python3 tools/wrong_bodies.py "$@"

#!/bin/sh
# Runs every test of every crate, and the program on its stored session, without proofs. One line a crate,
# and what failed; the last line is 'N passed, M failed'. With no crate named it first looks whether the drawings of the
# pages are as their texts say. `rt ci` proves the code and its tests, and runs both.
#
#   ./tests.sh                 all crates
#   ./tests.sh test_units      one crate
#   ./tests.sh test_sessions --only negotiation     those of its tests whose names have this word
if ! command -v python3 > /dev/null; then
    echo 'tests.sh wants python3' >&2
    exit 1
fi
if [ $# = 0 ]; then
    python3 "$(dirname "$0")/tools/drawings.py" --check || exit 1
fi
exec python3 "$(dirname "$0")/tools/unproved.py" tests "$@"

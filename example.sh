#!/bin/sh
# The array's main job, as a user first meets it: makes a disk of 1 MiB in a temporary folder, starts the array on it with both
# controllers' portals on the loopback, and does with it what a host does: finds it, logs in through both controllers, writes,
# reads through the other one, compares, COMPARE AND WRITE, reserves, moves the unit. trials/first_steps.py says each step; then
# the array is told `status` and `quit`. Ends with status 1 where a step fails. Wants the toolchain's command rt, and python3.
#
#   ./example.sh             compiles the program, but proves nothing of it
#   ./example.sh --proved    proves the program and all that it stands on first, where that was not done before; it lies at
#                            the top as ./arrayd then
set -e
cd "$(dirname "$0")"
if [ "$*" != '' ] && [ "$*" != --proved ]; then
    echo 'usage: ./example.sh [--proved]' >&2
    exit 2
fi
for wanted in rt python3; do
    if ! command -v "$wanted" > /dev/null; then
        echo "example.sh wants the command $wanted, which is not in PATH" >&2
        exit 1
    fi
done
place=$(mktemp -d)
pid=
# Nothing that was started here stays, however this ends: an array ends with who holds its console.
clean() {
    for one in $pid; do
        kill "$one" 2> /dev/null || true
    done
    wait
    rm -rf "$place"
}
trap clean EXIT
trap 'exit 130' INT
trap 'exit 143' TERM HUP

# A command that may take long, so that a signal ends it too.
run() {
    "$@" &
    pid=$!
    wait "$pid"
    pid=
}

if [ "$*" = --proved ]; then
    echo 'proving arrayd and each crate that it stands on, unless that was done here over the same text'
    run python3 tools/prove.py
    ARRAYD=./arrayd
    echo 'the proved program lies here as ./arrayd'
else
    echo 'compiling arrayd: it runs unproved here (./example.sh --proved proves it first)'
    run python3 tools/unproved.py program "$place/arrayd"
    ARRAYD=$place/arrayd
fi
run env ARRAYD="$ARRAYD" TMPDIR="$place" python3 trials/first_steps.py

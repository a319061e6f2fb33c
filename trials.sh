#!/bin/sh
# Runs every script of trials/ that this machine can run, side by side. A line each: passed, failed, or skipped with what it wants;
# the last line is 'N passed, M failed, K skipped'. The program is ./arrayd, or what ARRAYD names; without either it is compiled
# unproved. Ends with status 1 where one failed.
#
#   ./trials.sh [NAME..]       all, or these
#   ./trials.sh --fast         short runs, of together five minutes
#   ./trials.sh --list         what there is, what each would catch, what it wants
#   ./trials.sh --jobs N       so many side by side; by default as many as there are processors
#   ./trials.sh --json FILE    where the summary is left for a program: trials.json where nothing is said
if ! command -v python3 > /dev/null; then
    echo 'trials.sh wants python3' >&2
    exit 1
fi
exec python3 "$(dirname "$0")/trials/every.py" "$@"

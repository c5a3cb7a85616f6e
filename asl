#!/bin/sh
# Runs asl with the arguments given.
#
#   ./asl ARGS..      the proved program bin/asl where it is built from the sources as they stand; else the same sources
#                     unproved, in a minute or two, with one line on standard error that says so
#   ./asl --prove     proves and builds bin/asl
#
# Standard output and the exit status, 0 to 7, are the program's own; the status is 125 where it can't be run.
set -eu
top=$(cd "$(dirname "$0")" && pwd)
program=$top/bin/asl

if [ "$*" = --prove ]; then
    exec "$top/tools/prove"
elif [ -x "$program" ] && [ -z "$(find "$top/crates.txt" "$top/crates" -name out -prune -o -type f \
    \( -name crates.txt -o -path '*/src/*' -o -path '*/specs/*' -o -path '*/proofs/*' \) -newer "$program" -print)" ]; then
    exec "$program" "$@"
else
    exec "$top/tools/run-unproved" "$@"
fi

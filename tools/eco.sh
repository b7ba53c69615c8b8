#!/usr/bin/env bash
# Runs the program on the given words; tools/build.sh builds it first, unless that was done of the sources as they stand.
set -eu
program=$("$(dirname "$0")/build.sh" eco)
exec "$program" "$@"

#!/bin/sh
# Builds the program that measures `check`, and writes it to the given file.
# Usage: bench/validation.sh FILE
set -eu
here=$(cd "$(dirname "$0")" && pwd)
none=$(mktemp)
trap 'rm -f "$none"' EXIT
"$here/build.sh" validation 'base fields frame groups dict validate' "$1" frames "$here/../examples/FIX42.json" "$none" 1

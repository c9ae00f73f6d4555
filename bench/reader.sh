#!/bin/sh
# Builds the program that measures the Reader alone, and writes it to the given file.
# Usage: bench/reader.sh FILE
set -eu
here=$(cd "$(dirname "$0")" && pwd)
one=$(mktemp)
trap 'rm -f "$one"' EXIT
printf 'x' > "$one"
"$here/build.sh" reader 'base fields frame' "$1" frames "$one" 1 1

#!/bin/sh
# Builds the program of a benchmark, whose source is bench/NAME_main.txt, and writes it to the given file. It is
# built in a copy of the crates that it stands on, as the gate builds programs: proved first. It is run once, by
# the arguments. Usage: bench/build.sh NAME 'base fields ..' FILE ARGUMENTS..
set -eu
root=$(cd "$(dirname "$0")/.." && pwd)
name=$1_bench
source=$root/bench/$1_main.txt
below=$2
program=$(realpath -m "$3")
shift 3
work=$(mktemp -d)
trap 'rm -rf "$work"' EXIT
mkdir -p "$work/crates/$name/src"
uses=
for crate in $below; do
    mkdir "$work/crates/fix_$crate"
    (cd "$root/crates/fix_$crate" && cp -r src specs proofs "$work/crates/fix_$crate/")
    grep -E "^fix_$crate[ :]" "$root/crates.txt" >> "$work/crates.txt"
    uses="$uses fix_$crate"
done
echo "$name:$uses" >> "$work/crates.txt"
cp "$source" "$work/crates/$name/src/main.rt"
cp "$root/HANDLES" "$work/"
cd "$work"
git init -q .
cd "crates/$name"
rt run -- "$@"
cp "out/$name" "$program"

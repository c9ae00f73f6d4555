#!/bin/sh
# How many drafts a second go through an outbox of 16, beside a list of 16 under a lock: with one
# sender and with four, three times. The program is bench/outbox_main.txt. It is built in a copy of
# the crates that it stands on, by rt try: with checks and with no proof, so its figures serve to
# compare the two, and are no bound on what a proved build does.
set -eu
root=$(cd "$(dirname "$0")/.." && pwd)
work=$(mktemp -d)
trap 'rm -rf "$work"' EXIT
mkdir -p "$work/crates/outbox_bench/src"
for crate in fix_base fix_fields fix_outbox; do
    cp -r "$root/crates/$crate" "$work/crates/"
done
cp "$root/bench/outbox_main.txt" "$work/crates/outbox_bench/src/main.rt"
cp "$root/HANDLES" "$work/"
{
    grep -E '^fix_(base|fields|outbox)[ :]' "$root/crates.txt"
    echo 'outbox_bench: fix_outbox fix_base fix_fields'
} > "$work/crates.txt"
cd "$work"
git init -q .
cd crates/outbox_bench
rt try --steps 1000 --seconds 60

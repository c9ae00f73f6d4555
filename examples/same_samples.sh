#!/bin/sh
# Compares the sample dictionaries of this folder with the texts in fix_dict's source.
set -eu
cd "$(dirname "$0")"
source=../crates/fix_dict/src/samples.rt
for version in 42 44; do
    awk -v name="SAMPLE_$version" '
        $0 ~ "^pub const " name ":" { inside = 1; sub(/.*r#"/, "") }
        inside && /^"#;/ { exit }
        inside { print }' "$source" | cmp - "FIX$version.json"
done
echo "The samples are the same."

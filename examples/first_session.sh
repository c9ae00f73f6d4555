#!/bin/sh
# Runs one session with fixacceptor: a Logon, an order and a Logout with present times go in, and
# what comes out is shown, with | for the SOH byte. The proved program is used where it is built and
# no source is newer. Else rt try builds one without a proof, which takes some 40 seconds.
# To prove and build the program: (cd crates/fixacceptor && rt run -- --version)
set -eu
cd "$(dirname "$0")/.."
root=$PWD
work=$(mktemp -d)
trap 'rm -rf "$work"' EXIT

program=$root/crates/fixacceptor/out/fixacceptor
if [ -x "$program" ] && [ -z "$(find crates/*/src -name '*.rt' -newer "$program" | head -n 1)" ]; then
    proved=yes
    echo "This is the proved program, crates/fixacceptor/out/fixacceptor."
else
    proved=no
    echo "This is a program built by rt try, without a proof: the proved one isn't built here."
fi

# The frame of these fields, from MsgType (35) on: BodyLength (9) counts their bytes, and CheckSum
# (10) is the sum of all bytes before it modulo 256.
frame() {
    text="8=FIX.4.2|9=$(printf '%s' "$1" | wc -c | tr -d ' ')|$1"
    sum=$(printf '%s' "$text" | tr '|' '\001' | od -An -v -tu1 |
        awk '{ for (i = 1; i <= NF; i++) sum += $i } END { printf "%03d", sum % 256 }')
    printf '%s10=%s|' "$text" "$sum"
}

# SendingTime (52) must be within 120 seconds of the engine's clock. rt try reads its input before it
# builds, so the time is then that of a minute later.
now=$(date -u +%Y%m%d-%H:%M:%S)
if [ "$proved" = no ]; then
    now=$(date -u -d '+60 seconds' +%Y%m%d-%H:%M:%S 2>/dev/null) || now=$(date -u +%Y%m%d-%H:%M:%S)
fi
{
    frame "35=A|34=1|49=BUY|52=$now|56=SELL|98=0|108=30|"
    frame "35=D|34=2|49=BUY|52=$now|56=SELL|11=A1|21=1|55=XYZ|54=1|60=$now|40=1|"
    frame "35=5|34=3|49=BUY|52=$now|56=SELL|"
} >"$work/shown"
tr '|' '\001' <"$work/shown" >"$work/input"

status=0
if [ "$proved" = yes ]; then
    "$program" --stdio FIX.4.2 SELL BUY <"$work/input" >"$work/wire" 2>"$work/lines" || status=$?
else
    # rt try tells the program's status in its last lines on standard error.
    (cd crates/fixacceptor && rt try -- --stdio FIX.4.2 SELL BUY) \
        <"$work/input" >"$work/wire" 2>"$work/errors" || true
    status=$(sed -n 's/^checked: ended status=\([0-9]*\)$/\1/p' "$work/errors")
    if [ -z "$status" ]; then
        cat "$work/errors"
        exit 1
    fi
    grep -v -e '^checked: ' -e '^run=' "$work/errors" >"$work/lines" || true
fi

echo
echo "In (the counterparty BUY):"
sed 's/|8=FIX/|\
8=FIX/g' "$work/shown"
echo
echo
echo "Out (SELL, on standard output):"
tr '\001' '|' <"$work/wire" | sed 's/|8=FIX/|\
8=FIX/g'
echo
echo
echo "Handed over (on standard error):"
cat "$work/lines"
echo "Status: $status"
exit "$status"

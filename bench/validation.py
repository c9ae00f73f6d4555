#!/usr/bin/env python3
"""How fast messages are checked by a dictionary, beside the bars that are wanted.

    bench/validation.py --program PROGRAM [--peer PROGRAM --peer-dictionary FILE] [--work FOLDER] [--runs N]

PROGRAM is what bench/validation.sh builds. PROGRAM of --peer is another engine's benchmark, called as
PROGRAM FILE TIMES PIECE DICTIONARY and printing a line `valid frames=N cpu=Ss ..`; it checks the same
stream in the same minute by FILE, the same dictionary in its own form. All times are CPU time, user
and system, the best of N runs (5)."""
import argparse
import os
import re
import subprocess
import tempfile

from measuring import bar, frame, least, written

HERE = os.path.dirname(os.path.abspath(__file__))
SAMPLES = os.path.join(HERE, "..", "examples")
HEAD = "34=%d|49=BUY|52=20240102-10:00:00.000|56=SELL|"
ORDER = "11=A%d|21=1|55=XYZ|54=1|60=20240102-10:00:00|40=1|"


def order(number, more="", begin="FIX.4.2"):
    return frame("35=D|" + HEAD % number + ORDER % number + more, begin)


def ours(program, mode, dictionary, path, times):
    """The CPU time of a frame, in microseconds, and the faults that were found."""
    text = subprocess.run([program, mode, dictionary, path, str(times)], check=True, capture_output=True, text=True).stdout
    found = re.search(r"frames=(\d+) faults=(\d+) reasons=\d+ cpu_us=(\d+)", text)
    return int(found.group(3)) / int(found.group(1)), int(found.group(2))


def theirs(program, dictionary, path, times):
    text = subprocess.run([program, path, str(times), "8192", dictionary], check=True, capture_output=True, text=True).stdout
    found = re.search(r"^valid +frames=(\d+) cpu=([0-9.]+)s", text, re.M)
    return float(found.group(2)) / int(found.group(1)) * 1e6


def beside(given, what, dictionary, peer_dictionary, path, wanted):
    """Frames alone, and framed and checked, in turn with the other engine."""
    alone = checked = other = None
    for _ in range(given.runs):
        alone = least(alone, ours(given.program, "frames", dictionary, path, 10)[0])
        now, faults = ours(given.program, "check", dictionary, path, 10)
        checked = least(checked, now)
        if given.peer:
            other = least(other, theirs(given.peer, peer_dictionary, path, 10))
        if faults:
            raise SystemExit("%d faults in orders that have none" % faults)
    print("%s: %.3f us an order framed and checked, of which %.3f framed" % (what, checked, alone))
    if given.peer:
        print("  the other engine's reading and checking: %.3f us" % other)
        bar("framing and checking as fast as it, so many times", other / checked, wanted, True)


def growth(given, work, what, dictionary, sizes, make):
    """The time for each item of one frame, as the frame grows by tens."""
    times = {}
    for size in sizes:
        path = written(os.path.join(work, "one"), [make(size)])
        for _ in range(given.runs):
            alone, _ = ours(given.program, "frames", dictionary, path, 3)
            now, faults = ours(given.program, "check", dictionary, path, 3)
            if faults:
                raise SystemExit("faults in a frame that has none")
            times[size] = least(times.get(size), (now - alone) / size)
    print("%s: %s" % (what, ", ".join("%d: %.0f ns each" % (size, times[size] * 1e3) for size in sizes)))
    bar("the time of one in the greatest frame against one in the frame of a tenth", times[sizes[-1]] / times[sizes[-2]], 2)


def main():
    words = argparse.ArgumentParser()
    words.add_argument("--program", required=True)
    words.add_argument("--peer")
    words.add_argument("--peer-dictionary")
    words.add_argument("--work")
    words.add_argument("--runs", type=int, default=5)
    given = words.parse_args()
    with tempfile.TemporaryDirectory(dir=given.work) as work:
        made = {}
        for form in ("json", "xml"):
            made[form] = os.path.join(work, "made." + form)
            subprocess.run([os.path.join(HERE, "dictionary.py"), form, made[form]], check=True)
        orders = written(os.path.join(work, "orders"), (order(n) for n in range(1, 10_001)))
        beside(given, "orders by the sample", os.path.join(SAMPLES, "FIX42.json"), given.peer_dictionary, orders, 3)
        beside(given, "orders by 900 fields and 90 types", made["json"], made["xml"], orders, 3)
        sample = os.path.join(SAMPLES, "FIX44.json")
        growth(given, work, "user-defined tags in one order", sample, (1_000, 10_000, 100_000),
               lambda n: order(1, "".join("%d=xxx|" % (5000 + tag) for tag in range(n)), "FIX.4.4"))
        growth(given, work, "instances of a group in one order", sample, (600, 6_000, 60_000),
               lambda n: order(1, "453=%d|" % n + "448=PARTY1|447=D|" * n, "FIX.4.4"))


if __name__ == "__main__":
    main()

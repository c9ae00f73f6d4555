#!/usr/bin/env python3
"""How fast messages are framed and taken, beside the bars that are wanted.

    bench/framing.py [--reader PROGRAM] [--peer PROGRAM] [--work FOLDER] [--runs N]

fixacceptor is the proved program in crates/fixacceptor/out (see README.md here). It is given a
Logon, N orders and a Logout with present times by a file, and its lines go to a file. PROGRAM of
--reader is what bench/reader.sh builds; it measures the Reader alone. PROGRAM of --peer is another reader's benchmark, called as
PROGRAM FILE TIMES PIECE and printing a line `both frames=N cpu=Ss ..`; it reads the same stream in
the same minute. All times are CPU time, user and system, the best of N runs (5)."""
import argparse
import datetime
import os
import re
import subprocess
import tempfile
import time

from measuring import bar, frame, least, sealed, written

PROGRAM = os.path.join(os.path.dirname(os.path.abspath(__file__)), "..", "crates", "fixacceptor", "out", "fixacceptor")
PIECE = 8192
GREATEST = 1_048_576
JUNK = 4_000_000
HEAD = b"8=FIX.4.2\x019=1048576\x0135=D\x01"


def session(orders):
    now = datetime.datetime.now(datetime.timezone.utc).strftime("%Y%m%d-%H:%M:%S")
    head = "34=%d|49=BUY|52=" + now + "|56=SELL|"
    yield frame("35=A|" + head % 1 + "98=0|108=30|")
    for n in range(orders):
        yield frame("35=D|" + head % (n + 2) + "11=ORDER%d|21=1|55=MSFT|54=1|60=%s|38=100|40=2|44=101.25|59=0|" % (n, now))
    yield frame("35=5|" + head % (orders + 2))


def small_frames(size):
    """Small frames of so many bytes in all, or a little more."""
    pieces, length = [], 0
    for piece in session(size // 100):
        pieces.append(piece)
        length += len(piece)
        if length >= size:
            break
    return pieces


def peak_memory(process):
    """The most memory that the process has held so far, in kB."""
    with open("/proc/%d/status" % process) as lines:
        found = re.search(r"^VmHWM:\s+(\d+) kB", lines.read(), re.M)
    return int(found.group(1)) if found else 0


class Run:
    """What a child process used."""

    def __init__(self, words, wire, out, lines):
        start = time.monotonic()
        child = subprocess.Popen(words, stdin=wire, stdout=out, stderr=lines)
        self.memory = 0
        # The peak that wait4 tells is at least this script's own, so the child's is looked at while it runs.
        while True:
            self.memory = peak_memory(child.pid) or self.memory
            ended, status, used = os.wait4(child.pid, os.WNOHANG)
            if ended:
                break
            time.sleep(0.002)
        child.returncode = os.waitstatus_to_exitcode(status)
        self.status = child.returncode
        self.wall = time.monotonic() - start
        self.user, self.system = used.ru_utime, used.ru_stime
        self.cpu = used.ru_utime + used.ru_stime


def serve(work, path):
    """One run of the program over the stream; its lines are counted."""
    lines_path = os.path.join(work, "lines")
    with open(path, "rb") as wire, open(os.path.join(work, "out"), "wb") as out, open(lines_path, "wb") as lines:
        run = Run([PROGRAM, "--stdio", "FIX.4.2", "SELL", "BUY"], wire, out, lines)
    with open(lines_path, "rb") as lines:
        run.taken = sum(1 for _ in lines)
    return run


def orders(work, count, runs, peer=None):
    """The best run over so many orders, and the most memory of all the runs. The other reader, where
    one is given, reads the same stream in turn with the program."""
    path = written(os.path.join(work, "orders%d" % count), session(count))
    made = time.monotonic()
    best, memory, other = None, 0, None
    for _ in range(runs):
        if time.monotonic() - made > 60:
            written(path, session(count))
            made = time.monotonic()
        run = serve(work, path)
        if run.status != 0 or run.taken != count:
            raise SystemExit("status %d, %d of %d orders taken" % (run.status, run.taken, count))
        memory = max(memory, run.memory)
        if best is None or run.cpu < best.cpu:
            best = run
        if peer:
            other = least(other, peer_reading(peer, path))
    size = os.path.getsize(path)
    print("%7d orders, %d bytes: CPU %.3f s (user %.3f, system %.3f), wall %.3f s: %.3f us an order, %s orders/s, %.1f MB/s; peak memory %d kB"
          % (count, size, best.cpu, best.user, best.system, best.wall, best.cpu / count * 1e6,
             format(int(count / best.cpu), ","), size / best.cpu / 1e6, memory))
    if peer:
        print("the other reader, frames and fields: %.3f us an order" % (other * 1e6))
        bar("the whole program as fast as it, so many times", other / (best.cpu / count), 1, True)
    return path, best.cpu / count, memory


def reading(program, mode, path, piece, times, runs):
    """The least CPU time of one reading of the file, in seconds, and how many frames it has."""
    best, frames = None, 0
    for _ in range(runs):
        text = subprocess.run([program, mode, path, str(piece), str(times)], check=True, capture_output=True, text=True)
        found = re.search(r"frames=(\d+) .*cpu_us=(\d+)", text.stdout + text.stderr)
        best, frames = least(best, int(found.group(2)) / 1e6 / times), int(found.group(1)) // times
    return best, frames


def peer_reading(program, path):
    """The CPU time of a frame, in seconds, by the other reader's `both`."""
    text = subprocess.run([program, path, "1", str(PIECE)], check=True, capture_output=True, text=True).stdout
    found = re.search(r"^both +frames=(\d+) cpu=([0-9.]+)s", text, re.M)
    return float(found.group(2)) / int(found.group(1))


def alone(work, program, path, peer, runs):
    """The Reader alone: over the orders, and over what is hard for it."""
    modes, other = {}, None
    for _ in range(runs):
        for mode in ("frames", "walk", "fields"):
            cpu, frames = reading(program, mode, path, PIECE, 2, 1)
            modes[mode] = least(modes.get(mode), cpu / frames)
        if peer:
            other = least(other, peer_reading(peer, path))
    for mode, cpu in modes.items():
        print("Reader, %s: %.3f us a frame" % (mode, cpu * 1e6))
        if peer and mode == "frames":
            print("  as fast as the other reader, so many times: %.2f" % (other / cpu))
        elif peer:
            bar("as fast as the other reader, so many times", other / cpu, 4, True)
    long = written(os.path.join(work, "long"), [sealed(b"35=D\x0158=" + b"x" * (GREATEST - 9) + b"\x01")])
    whole, _ = reading(program, "frames", long, 2 * GREATEST, 50, runs)
    bytewise, _ = reading(program, "frames", long, 1, 5, runs)
    print("a frame of the greatest BodyLength: %.2f ms in one piece, %.2f ms byte by byte" % (whole * 1e3, bytewise * 1e3))
    bar("byte by byte against one piece", bytewise / whole, 20)
    small = written(os.path.join(work, "small"), small_frames(JUNK))
    junk = written(os.path.join(work, "junk"), [b"x" * JUNK])
    heads = written(os.path.join(work, "heads"), [(HEAD * (JUNK // len(HEAD) + 1))[:JUNK]])
    times = {}
    for name, file in (("small frames", small), ("no mark", junk), ("heads", heads)):
        for piece in (1, 64, PIECE, 2 * JUNK):
            times[name, piece], _ = reading(program, "frames", file, piece, 3, runs)
        print("%d bytes, %s: %s" % (JUNK, name, ", ".join("%.2f ms in pieces of %d" % (times[name, piece] * 1e3, piece) for piece in (1, 64, PIECE, 2 * JUNK))))
    bar("no mark against small frames, pieces of %d" % PIECE, times["no mark", PIECE] / times["small frames", PIECE], 3)
    bar("heads in pieces of 64 against small frames in pieces of %d" % PIECE, times["heads", 64] / times["small frames", PIECE], 15)
    bar("heads against small frames, both in pieces of 64", times["heads", 64] / times["small frames", 64], 15)


def main():
    words = argparse.ArgumentParser()
    words.add_argument("--reader")
    words.add_argument("--peer")
    words.add_argument("--work")
    words.add_argument("--runs", type=int, default=5)
    given = words.parse_args()
    with tempfile.TemporaryDirectory(dir=given.work) as work:
        path, few, few_memory = orders(work, 100_000, given.runs, given.peer)
        _, many, many_memory = orders(work, 400_000, given.runs)
        bar("time of an order, of 400,000 against 100,000", many / few, 1.3)
        bar("peak memory, the greater against the less", max(many_memory, few_memory) / min(many_memory, few_memory), 1.1)
        if given.reader:
            alone(work, given.reader, path, given.peer, given.runs)


if __name__ == "__main__":
    main()

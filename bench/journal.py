#!/usr/bin/env python3
"""What a journal over a real file costs: appends beside the same writes and syncs without a journal
(two syncs a record, the bound of that disk), and the opening of a file with 1,000,000 small records.
Then what a message store over it costs: the opening of 1,000,000 records, and reading 100,000 entries
one after another, as a resend does.

Usage: bench/journal.py [FOLDER [PROGRAM STORE]]. Its files lie in FOLDER while it runs, else beside the
repository. PROGRAM and STORE are programs that were built before.

The programs are bench/journal_main.txt and bench/store_main.txt. They are proved and built in a copy of
the crates that they stand on, so the first run takes the time of their check, less what `rt check` kept
in their out/."""
import os
import shutil
import statistics
import struct
import subprocess
import sys
import tempfile

ROOT = os.path.dirname(os.path.dirname(os.path.abspath(__file__)))
BELOW = {"journal": ("fix_base", "fix_disk", "fix_journal"), "store": ("fix_base", "fix_disk", "fix_fields", "fix_journal", "fix_store")}
USES = {"journal": "fix_disk fix_journal", "store": "fix_base fix_disk fix_store"}
ROUNDS = 60
APPENDS = 100
RECORDS = 1_000_000
PAYLOAD = 20  # bytes of a small record


def build(work, name):
    work, below = os.path.join(work, name), BELOW[name]
    for crate in below:
        shutil.copytree(os.path.join(ROOT, "crates", crate), os.path.join(work, "crates", crate))
    crate = os.path.join(work, "crates", f"{name}_bench")
    os.makedirs(os.path.join(crate, "src"))
    shutil.copy(os.path.join(ROOT, "bench", f"{name}_main.txt"), os.path.join(crate, "src", "main.rt"))
    shutil.copy(os.path.join(ROOT, "HANDLES"), work)
    with open(os.path.join(ROOT, "crates.txt")) as listed, open(os.path.join(work, "crates.txt"), "w") as out:
        out.writelines(line for line in listed if line.startswith(tuple(f"{it}:" for it in below)))
        out.write(f"{name}_bench: {USES[name]}\n")
    subprocess.run(["git", "init", "-q", "."], cwd=work, check=True)
    made = subprocess.run(["rt", "run", "--jobs", "2"], cwd=crate, stdout=subprocess.DEVNULL, stderr=subprocess.PIPE)
    if made.returncode:
        sys.exit(made.stderr.decode())
    return os.path.join(crate, "out", f"{name}_bench")


def rate(program, mode, path):
    """Records a second; the file is made anew."""
    done = subprocess.run([program, mode, path, str(APPENDS)], check=True, capture_output=True, stdin=subprocess.DEVNULL)
    os.remove(path)
    return APPENDS * 1e6 / int(done.stdout.split()[0])


def appends(program, path):
    """Each round measures both, the one right behind the other, and each of them first in turn: the
    rate of a disk may move by a factor of ten within a minute."""
    rows = []
    for turn in range(ROUNDS):
        modes = ("raw", "append") if turn % 2 == 0 else ("append", "raw")
        found = {mode: rate(program, mode, path) for mode in modes}
        rows.append((found["raw"], found["append"]))
    # The quickest third: where the disk is slow for a while, it hides what a journal costs.
    quick = sorted(rows, key=lambda it: 1 / it[0] + 1 / it[1])[: ROUNDS // 3]
    print(f"{ROUNDS} rounds of {APPENDS} records of 100 bytes: median of all, median of the quickest third, best")
    for name, at in (("raw, two syncs a record", 0), ("journal, appends", 1)):
        every, some = [it[at] for it in rows], [it[at] for it in quick]
        print(f"  {name}: {statistics.median(every):.0f}, {statistics.median(some):.0f}, {max(every):.0f} a second")
    shares = [statistics.median(b / a for a, b in them) for them in (rows, quick)]
    best = max(b for _, b in rows) / max(a for a, _ in rows)
    print(f"  journal / raw: {shares[0]:.1%}, {shares[1]:.1%}, {best:.1%}")


def make(path, records):
    record = b"\x01" + struct.pack(">I", PAYLOAD) + b"p" * PAYLOAD
    with open(path, "wb") as out:
        out.write(b"\x01FIXJRNL1")
        for at in range(0, records, 10_000):
            out.write(record * min(10_000, records - at))
        out.write(b"\0")
    return os.path.getsize(path)


def number_in(path, key):
    with open(path) as lines:
        return next(int(line.split()[1]) for line in lines if line.startswith(key))


def opening(program, path, mode="open"):
    """Microseconds, records, peak memory in kB, read calls of the whole process."""
    with subprocess.Popen([program, mode, path], stdin=subprocess.PIPE, stdout=subprocess.PIPE) as child:
        micros, count = map(int, child.stdout.readline().split())
        peak = number_in(f"/proc/{child.pid}/status", "VmHWM:")
        reads = number_in(f"/proc/{child.pid}/io", "syscr:")
        child.stdin.close()
    return micros, count, peak, reads


def openings(program, path):
    make(path, 0)
    empty = opening(program, path)
    size = make(path, RECORDS)
    runs = [opening(program, path) for _ in range(5)]
    os.remove(path)
    micros, count, peak, reads = min(runs)
    assert count == RECORDS and empty[1] == 0
    print(f"opening of {RECORDS} records of {PAYLOAD} bytes, {size} bytes in all, best of {len(runs)}")
    print(f"  {micros / 1000:.1f} ms, {micros * 1000 / RECORDS:.0f} ns a record")
    print(f"  {reads - empty[3]} reads more than of an empty journal")
    print(f"  peak memory {peak} kB, {peak - empty[2]} kB more than with an empty journal")


def make_store(path, entries, each, body):
    """A store's file with so many entries, so many in each record."""
    entry = b"\x01" + struct.pack(">Q", 1) + body
    many = b"\x06" + struct.pack(">II", each, 0) + (struct.pack(">I", len(entry)) + entry) * each
    payload = entry if each == 1 else many
    record = b"\x01" + struct.pack(">I", len(payload)) + payload
    with open(path, "wb") as out:
        out.write(b"\x01FIXJRNL1" + b"\x01" + struct.pack(">I", 5) + b"\x0a\0\0\0\x02")
        for at in range(0, entries, 10_000 * each):
            out.write(record * min(10_000, (entries - at) // each))
        out.write(b"\0")
    return os.path.getsize(path)


def cpu(program, mode, path):
    """CPU time in seconds, the least of several runs: other work on the machine disturbs it little."""
    times = []
    for _ in range(7):
        child = subprocess.Popen([program, mode, path], stdin=subprocess.DEVNULL, stdout=subprocess.DEVNULL)
        _, status, used = os.wait4(child.pid, 0)
        assert status == 0
        times.append(used.ru_utime + used.ru_stime)
    return min(times)


def stores(program, path):
    make_store(path, 0, 1, b"")
    empty, start = opening(program, path), cpu(program, "open", path)
    size = make_store(path, RECORDS, 1, b"35=D\x01")
    opened, seconds = opening(program, path), cpu(program, "open", path) - start
    assert opened[1] == RECORDS
    print(f"a store's opening of {RECORDS} records of 14 bytes, {size} bytes in all")
    print(f"  {seconds * 1e9 / RECORDS:.0f} ns of CPU time a record")
    print(f"  peak memory {opened[2]} kB, {opened[2] - empty[2]} kB more than with an empty store")
    body = b"35=D\x0158=" + b"x" * 91 + b"\x01"
    print("entries of 100 bytes, read one after another")
    for each, several in ((1, (50_000, 100_000)), (64, (51_200, 102_400))):
        for entries in several:
            make_store(path, entries, each, body)
            seconds = cpu(program, "walk", path) - cpu(program, "open", path)
            print(f"  {entries} of {each} in a record: {seconds * 1e6 / entries:.2f} us of CPU time an entry")
    os.remove(path)


def main():
    folder = sys.argv[1] if len(sys.argv) > 1 else os.path.dirname(ROOT)
    with tempfile.TemporaryDirectory() as work, tempfile.TemporaryDirectory(dir=folder, prefix="journal_bench.") as place:
        programs = sys.argv[2:4] if len(sys.argv) > 3 else [build(work, name) for name in ("journal", "store")]
        path = os.path.join(place, "journal")
        appends(programs[0], path)
        openings(programs[0], path)
        stores(programs[1], path)


if __name__ == "__main__":
    main()

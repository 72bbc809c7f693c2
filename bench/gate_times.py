#!/usr/bin/env python3
"""Run a command, for example the gate, and write the prover's CPU time for each crate into
bench/gate_times.md; or print which functions of crates take longest.

    bench/gate_times.py rt ci
    bench/gate_times.py functions NAME..

Run it at the top of the repository. The script samples the prover's processes once a second (Linux's /proc):
a proof is a process in the folder of a crate, an edit one in a copy. The time after the last sample
of a process, a second at most, is missing. A crate that an earlier run proved has no time in this
one, and keeps its time in the table.

For functions it checks each crate from scratch, in one process, and prints the twenty slowest.
"""
import glob
import os
import re
import resource
import shutil
import signal
import subprocess
import sys
import time

TICKS = os.sysconf("SC_CLK_TCK")
TABLE = "bench/gate_times.md"
MEASURE = "quant_tables"
HEAD = f"""# Times of the gate

CPU seconds of the prover's checks in one gate, from `bench/gate_times.py rt ci`. The proof of a
program includes both builds, that of a crate of tests its tests. The time of edits includes one
more proof of their crate; a crate with one edit or none has no further proof. Times depend on the
machine and on its load: compare two tables by the time of `{MEASURE}`.

| crate | lines of src, specs, proofs | edits | proof | edits took |
|---|---|---|---|---|
"""


def stat_of(pid):
    """The parent of a process, when it was started, and its seconds of processor."""
    with open(f"/proc/{pid}/stat", encoding="utf-8", errors="replace") as file:
        fields = file.read().rsplit(")", 1)[1].split()
    return int(fields[1]), fields[19], (int(fields[11]) + int(fields[12])) / TICKS


def processes_below(root):
    """The processes that stem from a process: number, start and seconds."""
    found = {}
    for pid in map(int, filter(str.isdecimal, os.listdir("/proc"))):
        try:
            found[pid] = stat_of(pid)
        except (OSError, IndexError):
            continue
    for pid, (above, started, seconds) in found.items():
        while above in found and above != root:
            above = found[above][0]
        if above == root:
            yield pid, started, seconds


def look(root, seen):
    """Notes what each process of the prover below the root has taken so far."""
    for pid, started, seconds in processes_below(root):
        try:
            with open(f"/proc/{pid}/cmdline", "rb") as file:
                words = file.read().split(b"\0")
            if not words[0].endswith(b"rattle"):
                continue
            crate, place = words[words.index(b"--crate-name") + 1].decode(), os.readlink(f"/proc/{pid}/cwd")
        except (OSError, ValueError, IndexError):
            continue
        seen[pid, started, crate] = ("edits" if "/rt-edit" in place else "proof", seconds)


def lines_in(*patterns):
    return sum(open(it, encoding="utf-8").read().count("\n") for pattern in patterns for it in glob.glob(pattern, recursive=True))


def rows_before():
    """The seconds that stand in the table, by crate."""
    rows = {}
    try:
        with open(TABLE, encoding="utf-8") as file:
            for name, proof, edits in re.findall(r"^\| `(\w+)` \|[^|]*\|[^|]*\| *([\d,]*) *\| *([\d,]*) *\|$", file.read(), re.M):
                rows[name] = [int(it.replace(",", "") or 0) for it in (proof, edits)]
    except OSError:
        pass
    return rows


def write_table(crates, seen, summary):
    taken, before = {}, rows_before()
    for (_, _, crate), (kind, seconds) in seen.items():
        taken.setdefault(crate, {}).setdefault(kind, []).append(seconds)
    sums, told = [0] * 6, lambda seconds: f"{seconds:,.0f}" if seconds else ""
    lines = []
    for crate in crates:
        folder, row = f"crates/{crate}", taken.get(crate, {})
        count = len(glob.glob(f"{folder}/must-fail/*.edit"))
        proof, edits = (sum(row[kind]) if kind in row else old for kind, old in zip(("proof", "edits"), before.get(crate, (0, 0))))
        cells = [lines_in(f"{folder}/src/**/*.rt"), lines_in(f"{folder}/specs/**/*.antt"), lines_in(f"{folder}/proofs/**/*.antt"),
                 count, proof, edits if count else 0]
        sums = [a + b for a, b in zip(sums, cells)]
        lines.append("| `{}` | {:,}, {:,}, {:,} | {} | {} | {} |\n".format(crate, *cells[:3], cells[3] or "", told(cells[4]), told(cells[5])))
        if crate == MEASURE:
            measure = cells[4]
    lines.append("| all | {:,}, {:,}, {:,} | {} | {} | {} |\n".format(*sums[:4], told(sums[4]), told(sums[5])))
    minutes = (sums[4] + sums[5]) / 60
    with open(TABLE, "w", encoding="utf-8") as file:
        file.write(HEAD + "".join(lines))
        file.write(f"\nThe checks take {minutes:.0f} CPU minutes on a machine that proves `{MEASURE}` in {measure:.0f} s.\n")
        file.write(f"{summary}\n")


def time_command(words):
    with open("crates.txt", encoding="utf-8") as file:
        crates = re.findall(r"^(\w+)(?: \w+)?:", file.read(), re.M)
    signal.signal(signal.SIGTERM, lambda *_: sys.exit(143))
    start, seen = time.monotonic(), {}
    with subprocess.Popen(words) as run:
        try:
            while run.poll() is None:
                look(run.pid, seen)
                time.sleep(1)
        finally:
            used = resource.getrusage(resource.RUSAGE_CHILDREN)
            write_table(crates, seen, "The last run took %.0f CPU minutes in all, and %.0f on the clock."
                        % ((used.ru_utime + used.ru_stime) / 60, (time.monotonic() - start) / 60))
    return run.returncode


def functions_of(crate):
    """What each function of a crate took: seconds of processor between the lines that tell that it is checked."""
    shutil.rmtree(f"crates/{crate}/out", ignore_errors=True)
    taken, before = [], 0.0
    with subprocess.Popen(["rt", "check", crate, "--progress", "--jobs", "1"], cwd=f"crates/{crate}", stdout=subprocess.PIPE, stderr=subprocess.STDOUT, text=True) as run:
        for line in run.stdout:
            seconds = sum(it[2] for it in processes_below(run.pid))
            if found := re.match(r"checked ([\w:+<>]+), \d+ of \d+", line):
                taken.append((seconds - before, found[1]))
            before = seconds
    return taken


def time_functions(crates):
    rows = sorted((row for crate in crates for row in functions_of(crate)), reverse=True)
    for seconds, name in rows[:20]:
        print(f"{seconds:6.1f} s {name}")
    print(f"{sum(row[0] for row in rows):6.0f} s {len(rows)} functions")
    return 0


def main(words):
    if not words:
        sys.exit(__doc__)
    sys.exit(time_functions(words[1:]) if words[0] == "functions" else time_command(words))


main(sys.argv[1:])

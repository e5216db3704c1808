#!/usr/bin/env python3
"""bench/gate.py  measures what the gate costs from nothing: it runs `rt ci --anew` in a temporary clone of what is
committed, and prints for each crate the processor seconds of its proof, of its tests and of its must-fail edits, and
how long the whole took. It reads once a second what each process of the run has used, so a crate's sums are a few
seconds short. What else the machine does meanwhile makes them larger: measure on a quiet one."""
import os
import re
import subprocess
import sys
import tempfile
import time

TICKS = os.sysconf("SC_CLK_TCK")


def processes():
    """Gives each process: its parent, its processor seconds, and when it began."""
    found = {}
    for name in filter(str.isdigit, os.listdir("/proc")):
        try:
            with open(f"/proc/{name}/stat", encoding="utf-8", errors="replace") as stat:
                fields = stat.read().rpartition(")")[2].split()
        except OSError:
            continue
        found[int(name)] = int(fields[1]), (int(fields[11]) + int(fields[12])) / TICKS, fields[19]
    return found


def descendants(root, found):
    """Gives the processes that a process began, and those that they began, and so on."""
    children = {}
    for number, (parent, _, _) in found.items():
        children.setdefault(parent, []).append(number)
    wanted, below = [root], []
    while wanted:
        below.append(wanted.pop())
        wanted += children.get(below[-1], [])
    return below


def task_of(number):
    """Says which crate a process proves and for what, or None for another process."""
    try:
        with open(f"/proc/{number}/cmdline", encoding="utf-8", errors="replace") as line:
            words = line.read().split("\0")
        folder = os.readlink(f"/proc/{number}/cwd")
    except OSError:
        return None
    if "--crate-name" not in words:
        return None
    crate = words[words.index("--crate-name") + 1]
    if "rt-edit-" in folder:
        return crate, "edits"
    return crate, "tests" if "--test" in words else "proof"


def measured(run):
    """Watches a run to its end, and gives the processor seconds of each task."""
    tasks, used = {}, {}
    while run.poll() is None:
        found = processes()
        for number in descendants(run.pid, found):
            if number not in found:
                continue
            key = number, found[number][2]
            if tasks.get(key) is None:
                tasks[key] = task_of(number)
            used[key] = found[number][1]
        time.sleep(1)
    sums = {}
    for key, seconds in used.items():
        if tasks[key]:
            sums[tasks[key]] = sums.get(tasks[key], 0) + seconds
    return sums


def main():
    top = os.path.dirname(os.path.dirname(os.path.abspath(__file__)))
    with tempfile.TemporaryDirectory(prefix="gate-") as clone:
        subprocess.run(["git", "clone", "-q", top, clone], check=True)
        began = time.time()
        with tempfile.TemporaryFile("w+") as log:
            with subprocess.Popen(["rt", "ci", "--anew"], cwd=clone, stdout=log, stderr=subprocess.STDOUT) as run:
                sums = measured(run)
            log.seek(0)
            last = log.read().rstrip().rpartition("\n")[2]
        minutes = (time.time() - began) / 60
        with open(f"{clone}/crates.txt", encoding="utf-8") as listed:
            crates = re.findall(r"^(\w+)[^:#]*:", listed.read(), re.M)
    print(f"{'crate':16}{'proof':>7}{'tests':>7}{'edits':>7}{'minutes':>9}")
    for crate in crates:
        parts = [sums.get((crate, part), 0) for part in ("proof", "tests", "edits")]
        print(f"{crate:16}{parts[0]:7.0f}{parts[1]:7.0f}{parts[2]:7.0f}{sum(parts) / 60:9.1f}")
    print(f"all: {sum(sums.values()) / 60:.0f} processor minutes, in {minutes:.1f} minutes: {last}")
    return run.returncode


if __name__ == "__main__":
    sys.exit(main())

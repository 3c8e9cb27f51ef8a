#!/usr/bin/env python3
"""Runs a command, as the gate, and prints what it took of the processors, crate by crate: the rows of the table in
docs/DEVELOPING.md. It looks four times a second at the checks that the command has running, so what a check takes after
the last look is missing, and a check that is shorter than a look may be missing whole. The gate never runs it.

usage: bench/gate_seconds.py COMMAND [WORD..]     for example: bench/gate_seconds.py rt ci
"""
import collections
import glob
import os
import subprocess
import sys
import threading
import time

TICKS = os.sysconf("SC_CLK_TCK")
TOP = os.path.dirname(os.path.dirname(os.path.abspath(__file__)))


def stat_of(process):
    """The fields of a process from the third one on: its state, its parent, and so on."""
    with open(f"/proc/{process}/stat") as file:
        text = file.read()
    return text[text.rindex(")") + 2 :].split()


def parents():
    """Each process with its parent."""
    found = {}
    for name in os.listdir("/proc"):
        if name.isdigit():
            try:
                found[name] = stat_of(name)[1]
            except (OSError, ValueError, IndexError):
                pass
    return found


def is_below(process, top, parent):
    """Whether a process was begun, at whatever remove, by another."""
    while process in parent and process != "0":
        if process == top:
            return True
        process = parent[process]
    return False


def look(process, checks):
    """Notes what a check has taken so far: its crate, whether it is of an edit, its seconds and its memory in MB."""
    with open(f"/proc/{process}/cmdline", "rb") as file:
        words = file.read().decode(errors="replace").split("\0")
    if os.path.basename(words[0]) not in ("rattle", "rattle-link") or "--crate-name" not in words:
        return
    fields = stat_of(process)
    seconds = sum(map(int, fields[11:15])) / TICKS
    with open(f"/proc/{process}/status") as file:
        memory = next((int(line.split()[1]) // 1024 for line in file if line.startswith("VmHWM")), 0)
    crate = words[words.index("--crate-name") + 1]
    is_edit = "rt-edit-" in os.readlink(f"/proc/{process}/cwd")
    before = checks.get((process, fields[19]), (0, 0, 0, 0))
    checks[process, fields[19]] = crate, is_edit, seconds, max(memory, before[3])


def watch(top, checks, done):
    """Looks at the checks below a process until it is done."""
    while not done.wait(0.25):
        parent = parents()
        for process in parent:
            if is_below(process, top, parent):
                try:
                    look(process, checks)
                except (OSError, ValueError, IndexError):
                    pass


def lines_of(crate):
    """How many lines of code a crate has."""
    total = 0
    for path in glob.glob(f"{TOP}/crates/{crate}/src/**/*.rt", recursive=True):
        with open(path, encoding="utf-8") as file:
            total += sum(1 for _ in file)
    return total


def crates():
    """The crates in the order of crates.txt."""
    with open(f"{TOP}/crates.txt", encoding="utf-8") as file:
        return [line.split(":")[0].split()[0] for line in file if ":" in line.split("#")[0]]


def show(checks, minutes):
    """Prints the table, and what all of it comes to."""
    proofs, edits, memory = collections.Counter(), collections.Counter(), collections.Counter()
    for crate, is_edit, seconds, most in checks.values():
        (edits if is_edit else proofs)[crate] += seconds
        memory[crate] = max(memory[crate], most)
    print("| Crate | Lines | Proof | Edits |\n|---|---|---|---|")
    for crate in crates():
        tried = round(edits[crate]) or ""
        print(f"| `{crate}` | {lines_of(crate)} | {round(proofs[crate])} | {tried} |")
    lines = sum(map(lines_of, crates()))
    total = (sum(proofs.values()) + sum(edits.values())) / 60
    print(f"proofs {sum(proofs.values()) / 60:.0f} minutes of processor, edits {sum(edits.values()) / 60:.0f},", end=" ")
    print(f"{total / lines * 1000:.1f} a thousand of {lines} lines; {minutes:.0f} minutes of clock")
    for crate, most in memory.most_common(3):
        print(f"{crate} took {most} MB")


def main():
    if len(sys.argv) < 2:
        sys.exit(__doc__)
    checks, done, begun = {}, threading.Event(), time.monotonic()
    command = subprocess.Popen(sys.argv[1:])
    watcher = threading.Thread(target=watch, args=(str(command.pid), checks, done))
    watcher.start()
    status = command.wait()
    done.set()
    watcher.join()
    show(checks, (time.monotonic() - begun) / 60)
    sys.exit(status)


if __name__ == "__main__":
    main()

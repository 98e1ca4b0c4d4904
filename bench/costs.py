#!/usr/bin/env python3
"""Runs the gate and writes what each crate costs: processor minutes (user and system) of its proof, its tests and its edits.

    bench/costs.py                 runs `rt ci --anew`, which proves all from nothing, and prints the table of docs/COSTS.md
    bench/costs.py COMMAND ..      runs this command in its place
    bench/costs.py --keep FILE ..  adds to the numbers of earlier runs that FILE holds, and keeps them there

The times are those that the system counts for each process of the prover, read four times a second. So what a process
does in its last quarter of a second is not seen.
"""
import collections
import datetime
import json
import os
import subprocess
import sys
import threading
import time

TICKS = os.sysconf("SC_CLK_TCK")
KINDS = ("proof", "tests", "edits")


def kind_of(words, folder):
    """Whether a process of the prover serves a crate's proof, its tests or its edits."""
    if "/rt-edit" in folder:
        return "edits"
    return "tests" if "--test" in words else "proof"


def task_of(pid):
    """The crate and the kind of task that a process serves, or None where it is none of the prover's."""
    with open(f"/proc/{pid}/cmdline", "rb") as file:
        words = file.read().decode("utf-8", "replace").split("\0")
    if not os.path.basename(words[0]).startswith("rattle") or "--crate-name" not in words:
        return None
    name = words[words.index("--crate-name") + 1].removesuffix("_tests")
    return name, kind_of(words, os.readlink(f"/proc/{pid}/cwd"))


def stat_of(pid):
    """A process's parent, its begin, and the processor seconds of its own."""
    with open(f"/proc/{pid}/stat", encoding="utf-8", errors="replace") as file:
        fields = file.read().rpartition(")")[2].split()
    return int(fields[1]), fields[19], (int(fields[11]) + int(fields[12])) / TICKS


def below(root, parents):
    """The processes that a process began, and those that these began."""
    children = collections.defaultdict(list)
    for pid, parent in parents.items():
        children[parent].append(pid)
    found, left = set(), [root]
    while left:
        pid = left.pop()
        found.add(pid)
        left += children[pid]
    return found


def look(root, seen):
    """Notes the seconds of each process of the prover that a command began."""
    stats = {}
    for name in os.listdir("/proc"):
        if name.isdigit():
            try:
                stats[int(name)] = stat_of(name)
            except (OSError, ValueError, IndexError):
                continue
    for pid in below(root, {pid: stat[0] for pid, stat in stats.items()}):
        try:
            task = task_of(pid) if pid in stats else None
        except OSError:
            continue
        if task:
            seen[(pid, stats[pid][1])] = (*task, stats[pid][2])


def watch(root, seen, ended):
    """Looks four times a second until the command has ended."""
    while not ended.is_set():
        look(root, seen)
        time.sleep(0.25)


def run(command):
    """Runs a command, and gives its status and the seconds of each crate's tasks."""
    seen, ended = {}, threading.Event()
    process = subprocess.Popen(command)
    thread = threading.Thread(target=watch, args=(process.pid, seen, ended))
    thread.start()
    status = process.wait()
    ended.set()
    thread.join()
    seconds = collections.defaultdict(lambda: collections.defaultdict(float))
    for name, kind, spent in seen.values():
        seconds[name][kind] += spent
    return status, seconds


def crates():
    """The crates of crates.txt, in its order, each with the repository's crates that it uses."""
    found = {}
    with open("crates.txt", encoding="utf-8") as file:
        for line in file:
            name, colon, libraries = line.partition("#")[0].partition(":")
            if colon:
                found[name.split()[0]] = libraries.split()
    return {name: [it for it in libraries if it in found] for name, libraries in found.items()}


def longest(name, uses, minutes, known):
    """The longest chain of proofs that ends with a crate: its minutes and its crates."""
    if name not in known:
        chains = [longest(it, uses, minutes, known) for it in uses[name]]
        best = max(chains, default=(0, []))
        known[name] = (best[0] + minutes[name], [*best[1], name])
    return known[name]


def minutes(seconds):
    """Minutes as they stand in the table: `-` where nothing was measured."""
    return "-" if seconds is None else "%.1f" % (seconds / 60)


def table(seconds):
    """The table of docs/COSTS.md."""
    uses = crates()
    lines = ["| Crate | Proof | Tests | Edits | Together |", "|---|---|---|---|---|"]
    totals = dict.fromkeys(KINDS, 0.0)
    for name in uses:
        spent = [seconds.get(name, {}).get(kind) for kind in KINDS]
        together = sum(it or 0.0 for it in spent) if any(spent) else None
        for kind, it in zip(KINDS, spent):
            totals[kind] += it or 0.0
        lines.append("| `%s` | %s | %s |" % (name, " | ".join(map(minutes, spent)), minutes(together)))
    lines.append("| all | %s | %s |" % (" | ".join(minutes(totals[kind]) for kind in KINDS), minutes(sum(totals.values()))))
    proofs = {name: seconds.get(name, {}).get("proof", 0.0) / 60 for name in uses}
    known = {}
    chain = max(longest(name, uses, proofs, known) for name in uses)
    lines += ["", "Longest chain of proofs: %.1f processor minutes: %s." % (chain[0], ", ".join(f"`{it}`" for it in chain[1]))]
    return lines


def main():
    words, kept = sys.argv[1:], None
    if words[:1] == ["--keep"]:
        kept, words = words[1], words[2:]
    status, seconds = run(words or ["rt", "ci", "--anew"])
    if kept and os.path.exists(kept):
        with open(kept, encoding="utf-8") as file:
            for name, kinds in json.load(file).items():
                for kind, spent in kinds.items():
                    # A task that this run did not do keeps the number of the earlier one.
                    seconds[name].setdefault(kind, spent)
    if kept:
        with open(kept, "w", encoding="utf-8") as file:
            json.dump(seconds, file)
    print(f"{datetime.date.today()}, {len(os.sched_getaffinity(0))} processors, status {status}\n")
    print("\n".join(table(seconds)))
    return status


if __name__ == "__main__":
    sys.exit(main())

#!/usr/bin/env python3
"""Counts what an entry costs `multics check` as tables grow: judging.py BINARY [ENTRIES], where BINARY is `multics`.

Each book is of eight processors, and goes the same way to its end, entry by entry, over the same 64 frames and the same
64 descriptors: pages are taken and brought back, descriptors are cut and connected again, each with a signal and what
the other processors drop, and segments become active and inactive. The books differ in what stands before that: how
many pages are in core, how many segments are active, and how many descriptors lead to one. For each it prints the
instructions an entry, as valgrind's callgrind counts them in `Judge::accept`: the reading of the line, the flat store's
part, and custody's.
"""
import os, random, re, subprocess, sys, tempfile

PROCESSORS, EACH, LARGE = 8, 125, 4
CALL = "book_check::judge::Judge::accept"


def small(process, number):
    """The uid of a process's segment: the first process makes the large ones before its own."""
    return 2 + LARGE + EACH * process + number


def number_of(process, number):
    return number + (LARGE if process == 0 else 0)


def script(frames):
    lines = [f"machine {PROCESSORS} {frames} 1013 1 1 {LARGE}", "quota 2000", "volume alpha 2000 2000", "print all"]
    for process in range(PROCESSORS):
        lines.append(f"process User{process}")
        names = [f">b{i} 256" for i in range(LARGE)] if process == 0 else []
        names += [f">s{process}a{i} 1" for i in range(EACH)]
        lines += [f"mkseg {name} alpha" for name in names]
        lines += [f"initiate {name.split()[0]}" for name in names]
        if process == 0:
            lines += [f"write {page // 256} {page % 256 * 1024} 1" for page in range(1024)]
        lines.append("end")
    return lines


def beginning(pages, active, connected):
    """All segments are made and known; so many are active, so many descriptors connected, and so many pages in core."""
    lines, uid = [], 2
    for process in range(PROCESSORS):
        lines += [f"online {process}", f"load {process} {process}"]
        count = EACH + (LARGE if process == 0 else 0)
        for place in range(count):
            lines.append(f"do {process}.{place} {process} - made {uid}")
            uid += 1
        lines += [f"do {process}.{count + number} {process} - known {number}" for number in range(count)]
    lines.append("activate 1")
    lines += [f"activate {2 + i}" for i in range(LARGE)] + [f"connect 0 {i} {2 + i}" for i in range(LARGE)]
    inner = [(i % PROCESSORS, i // PROCESSORS) for i in range(active)]
    lines += [f"activate {small(*at)}" for at in inner]
    lines += [f"connect {p} {number_of(p, i)} {small(p, i)}" for p, i in inner[:connected]]
    for page in range(pages):
        lines += [f"in {page} {2 + page // 256} {page % 256}", f"do 0.{2 * (EACH + LARGE) + page} 0 - done"]
    return lines


def rounds(entries):
    """What every book goes on with."""
    draw, lines = random.Random(3), []
    while len(lines) < entries:
        cpu, frame = draw.randrange(PROCESSORS), draw.randrange(64)
        others = [other for other in range(PROCESSORS) if other != cpu]
        lines += [f"fill {cpu} page {frame}", f"take {frame}", f"signal {cpu} page {frame}"]
        lines += [f"clear {other} page {frame}" for other in others] + [f"back page {frame}"]
        process, at = draw.randrange(PROCESSORS), draw.randrange(8)
        number, uid = number_of(process, at), small(process, at)
        lines += [f"fill {process} seg {number}", f"cut {process} {number}", f"signal {cpu} seg {uid}"]
        lines += [f"clear {other} seg {uid}" for other in others] + [f"back seg {process} {number}"]
        uid = small(draw.randrange(PROCESSORS), EACH - 1)
        lines += [f"activate {uid}", f"deactivate {uid}"]
    return lines[:entries]


def counted(binary, frames, front, then):
    """The instructions of all entries. The book isn't whole, so it is refused, but not before its end."""
    whole = script(frames) + ["book"] + front + then
    with tempfile.TemporaryDirectory() as folder:
        source, profile = os.path.join(folder, "book"), os.path.join(folder, "profile")
        with open(source, "w") as out:
            out.write("\n".join(whole) + "\n")
        with open(source) as book:
            shown = subprocess.run(["valgrind", "--tool=callgrind", f"--callgrind-out-file={profile}",
                                    f"--toggle-collect={CALL}", binary, "check"],
                                   stdin=book, capture_output=True, text=True)
        if shown.stdout != f"refused at line {len(whole) + 1}: part\n":
            sys.exit(f"not judged to its end: {shown.stdout[:200]}")
        lines = subprocess.run(["callgrind_annotate", "--inclusive=yes", "--threshold=100", profile],
                               capture_output=True, text=True).stdout
    found = re.search(rf"^\s*([\d,]+) .*{CALL}", lines, re.M)
    return int(found.group(1).replace(",", ""))


def main():
    binary, entries = sys.argv[1], int(sys.argv[2]) if len(sys.argv) > 2 else 1_000_000
    then = rounds(entries)
    print("| Frames, all with a page | Active, beside five | Connected, beside four | Instructions an entry |")
    print("|---|---|---|---|")
    for frames, active, connected in ((64, 64, 64), (1024, 64, 64), (64, 992, 64), (64, 992, 992), (1024, 992, 992)):
        front = beginning(frames, active, connected)
        before, after = (counted(binary, frames, front, more) for more in ([], then))
        print(f"| {frames} | {active} | {connected} | {(after - before) / len(then):,.0f} |", flush=True)


if __name__ == "__main__":
    main()

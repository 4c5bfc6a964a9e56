#!/usr/bin/env python3
"""Random scripts by random schedules: `python3 bench/schedules.py LAB MULTICS N [SEED]`.

LAB and MULTICS are the programs, as `labs/multics` finds the second. N scripts of two to eight processors are made up,
each with a schedule of steps, rounds, draws and lines `until`. Each listing of `lab steps` must be accepted by `multics
check`, and two runs of one input must print the same bytes. A schedule with a line that isn't reached is refused with
status 1, twice the same; how many were is printed at the end.
"""
import random
import subprocess
import sys

ENTRIES = ["do", "fill", "signal", "clear", "cut", "leave", "load", "take", "in"]


def process(draw, person, own):
    """The lines of a process: it makes a segment of its own, and uses that and the shared one."""
    lines = [f"process {person}", "initiate >shared", f"mkseg >{own} 2 alpha", f"initiate >{own}"]
    for _ in range(draw.randrange(2, 12)):
        segment, offset = draw.randrange(2), draw.randrange(2) * 1024 + draw.randrange(4)
        lines.append(draw.choice([
            f"write {segment} {offset} {draw.randrange(8)}",
            f"add {segment} {offset} 1",
            f"read {segment} {offset}",
            f"truncate >{own} {draw.randrange(2)}",
            f"status >{own}",
            f"acl >{own} Jones {draw.choice(['n', 'r', 'rw'])}",
        ]))
    return lines + ["end"]


def script(draw, processors):
    """A script that prints each entry of its book."""
    people = ["Smith", "Jones", "Brown", "Adams", "Clark", "Davis", "Evans", "Grant"]
    count = draw.randrange(2, processors + 3)
    lines = [
        f"machine {processors} {draw.choice([4, 5, 8])} 12 {draw.choice([1, 2])} 1 1",
        f"quota {draw.choice([3, 8, 30])}",
        "volume alpha 64 32",
        "print all",
        "initializer",
        "mkseg >shared 2 alpha",
    ]
    lines += [f"acl >shared {person} rw" for person in people] + ["end"]
    for number in range(count):
        lines += process(draw, people[number % len(people)], f"own{number}")
    return lines


def schedule(draw, processors):
    """The lines of a schedule."""
    lines = ["schedule", "# drawn"]
    for _ in range(draw.randrange(1, 10)):
        cpu = draw.randrange(processors)
        lines.append(draw.choice([
            f"step {cpu}",
            f"step {cpu} {draw.randrange(1, 200)}",
            f"round {draw.randrange(1, 40)}",
            f"draw {draw.randrange(2**32)} {draw.randrange(1, 400)}",
            f"until {cpu} {draw.choice(ENTRIES)}" if draw.randrange(4) == 0 else f"round {draw.randrange(1, 9)}",
        ]))
    return lines


def ran(program, form, text):
    """The status and the output of a program on a text."""
    done = subprocess.run([program, form], input=text, stdout=subprocess.PIPE, timeout=600)
    return done.returncode, done.stdout


def main(lab, multics, count, seed):
    draw = random.Random(seed)
    refused = 0
    for number in range(count):
        processors = draw.randrange(2, 9)
        lines = script(draw, processors)
        text = "\n".join(lines + schedule(draw, processors) + [""]).encode()
        first, second = ran(lab, "steps", text), ran(lab, "steps", text)
        if first != second:
            sys.exit(f"script {number}: two runs differ")
        if first[0] == 1 and first[1].endswith(b": unreached\n"):
            refused += 1
            continue
        if first[0] != 0:
            sys.exit(f"script {number}: status {first[0]}: {first[1]!r}")
        judged = ran(multics, "check", "\n".join(lines + ["book", ""]).encode() + first[1])
        if judged[0] != 0 or not judged[1].startswith(b"accepted "):
            sys.exit(f"script {number}: {judged[1]!r}")
    print(f"{count} scripts, {count - refused} listings accepted, {refused} schedules with a line that isn't reached")


if __name__ == "__main__":
    main(sys.argv[1], sys.argv[2], int(sys.argv[3]), int(sys.argv[4]) if len(sys.argv) > 4 else 1)

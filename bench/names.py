#!/usr/bin/env python3
"""Counts what names cost: names.py BINARY, where BINARY is the program `multics`.

A run makes 4096 segments, as many as a tree has branches, with names of 32 letters: at random, or such that differ only
in their last four letters, in ascending or in descending order. The instructions of a command, as valgrind's callgrind
counts them, are those of the run less those of the run without these commands.
"""
import os, random, re, subprocess, sys, tempfile

COUNT = 4096
LETTERS = "abcdefghijklmnopqrstuvwxyz"


def last_four(i):
    return "".join(LETTERS[i // 26 ** place % 26] for place in (3, 2, 1, 0))


def kinds():
    draw = random.Random(3)
    alike = ["n" * 28 + last_four(i) for i in range(COUNT)]
    return {"at random": ["".join(draw.choice(LETTERS) for _ in range(32)) for _ in range(COUNT)],
            "that differ only in their last four letters, ascending": alike,
            "the same, descending": alike[::-1]}


def instructions(binary, commands):
    lines = ["machine 1 4 12 1 1 1", "quota 4", "volume alpha 8 4097", "process Smith", *commands, "end", ""]
    with tempfile.TemporaryDirectory() as folder:
        source, profile = os.path.join(folder, "script"), os.path.join(folder, "profile")
        with open(source, "w") as out:
            out.write("\n".join(lines))
        with open(source) as given:
            shown = subprocess.run(["valgrind", "--tool=callgrind", f"--callgrind-out-file={profile}", binary, "run"],
                                   stdin=given, capture_output=True, text=True)
        answers = [line for line in shown.stdout.split("\n") if " = " in line]
        if len(answers) != len(commands) + 1 or not all(re.search(r" = (made|known|done)", it) for it in answers):
            sys.exit(f"not run: {shown.stdout[:300]}")
        with open(profile) as told:
            return int(re.search(r"^(?:totals|summary): (\d+)", told.read(), re.M).group(1))


def main():
    binary = sys.argv[1]
    nothing = instructions(binary, [])
    print("| Names of 32 letters | `mkseg` | `initiate` and `terminate` | `delete` |\n|---|---|---|---|")
    for kind, names in kinds().items():
        make = [f"mkseg >{name} 1 alpha" for name in names]
        made = instructions(binary, make)
        known = instructions(binary, make + [it for name in names for it in (f"initiate >{name}", "terminate 0")])
        gone = instructions(binary, make + [f"delete >{name}" for name in names])
        row = [(made - nothing) / COUNT, (known - made) / COUNT, (gone - made) / COUNT]
        print(f"| {kind} | {' | '.join(f'{it:,.0f}' for it in row)} |", flush=True)


if __name__ == "__main__":
    main()

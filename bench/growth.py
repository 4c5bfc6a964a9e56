#!/usr/bin/env python3
"""Counts how a command's cost grows with what the machine holds: growth.py BINARY, where BINARY is the program `multics`.

For each table a script fills it with so many things, and then makes commands on them at random. The instructions of a
command, as valgrind's callgrind counts them, are those of a run with twice as many commands less those of a run with
half of these. A last column has the largest ratio of a row's neighbours, which stand for twice as many things.
"""
import os, random, subprocess, sys, tempfile

COMMANDS = 12_000


def named(size):
    """Branches right below the root, of which the status is asked."""
    fill = [f"mkseg >s{i} 1 alpha" for i in range(size)]
    return "1 4 12 1 1 1", fill, lambda draw: [f"status >s{draw.randrange(size)}"]


def renewed(size):
    """Branches right below the root, of which one is deleted and made again."""
    fill = [f"mkseg >s{i} 1 alpha" for i in range(size)]

    def renew(draw):
        at = draw.randrange(size)
        return [f"delete >s{at}", f"mkseg >s{at} 1 alpha"]
    return "1 4 12 1 1 1", fill, renew


def active(size):
    """Active segments, each made known, referred to and forgotten anew."""
    use = lambda i: [f"initiate >s{i}", "read 0 5", "terminate 0"]
    fill = [f"mkseg >s{i} 1 alpha" for i in range(size)] + [it for i in range(size) for it in use(i)]
    return f"1 64 {size + 4} 1 1 1", fill, lambda draw: use(draw.randrange(size))


def accounts(size):
    """Directories with quota, to and from which quota moves."""
    fill = [it for i in range(size) for it in (f"mkdir >d{i} alpha", f"move >d{i} +1")]

    def move(draw):
        at = draw.randrange(size)
        return [f"move >d{at} +1", f"move >d{at} -1"]
    return "1 4 12 1 1 1", fill, move


def known(size):
    """Numbers of one process, by each of which a word is read."""
    fill = [it for i in range(size) for it in (f"mkseg >s{i} 1 alpha", f"initiate >s{i}", f"write {i} 0 1")]
    return "1 512 512 1 1 1", fill, lambda draw: [f"read {draw.randrange(size)} 0"]


def stored(size):
    """Stored pages of segments with 256 pages each, of which one is read."""
    fill = [it for s in range(-(-size // 256)) for it in (f"mkseg >s{s} 256 alpha", f"initiate >s{s}")]
    fill += [f"write {i // 256} {i % 256 * 1024} 1" for i in range(size)]

    def read(draw):
        at = draw.randrange(size)
        return [f"read {at // 256} {at % 256 * 1024}"]
    return "1 4 12 1 1 64", fill, read


TABLES = [("branches, `status`", named, (1024, 2048, 4096)), ("branches, `delete` and `mkseg`", renewed, (1024, 2048, 4096)),
          ("active segments", active, (252, 504, 1008)), ("accounts", accounts, (1024, 2048, 4096)),
          ("numbers of a process", known, (64, 128, 256)), ("stored pages, in 4 frames", stored, (1024, 2048, 4096))]


def instructions(binary, machine, fill, use, count):
    draw = random.Random(7)
    commands = list(fill)
    while len(commands) < len(fill) + count:
        commands += use(draw)
    lines = [f"machine {machine}", "quota 16384", "volume alpha 16384 4097", "print short", "process Smith", *commands, "end", ""]
    with tempfile.TemporaryDirectory() as folder:
        source, profile = os.path.join(folder, "script"), os.path.join(folder, "profile")
        with open(source, "w") as out:
            out.write("\n".join(lines))
        with open(source) as given:
            shown = subprocess.run(["valgrind", "--tool=callgrind", f"--callgrind-out-file={profile}", binary, "run"],
                                   stdin=given, capture_output=True, text=True)
        if shown.returncode != 0:
            sys.exit(f"not run: {shown.stdout[:300]}")
        with open(profile) as told:
            total = next(line for line in told if line.startswith(("totals:", "summary:")))
        return int(total.split()[1]), len(commands) - len(fill)


def a_command(binary, table, size):
    machine, fill, use = table(size)
    once, fewer = instructions(binary, machine, fill, use, COMMANDS)
    twice, more = instructions(binary, machine, fill, use, 2 * COMMANDS)
    return (twice - once) / (more - fewer)


def main():
    print("| What there is | How many | Instructions a command | Times, at most |\n|---|---|---|---|")
    for name, table, sizes in TABLES:
        costs = [a_command(sys.argv[1], table, size) for size in sizes]
        most = max(after / before for before, after in zip(costs, costs[1:]))
        print(f"| {name} | {', '.join(map(str, sizes))} | {', '.join(f'{it:,.0f}' for it in costs)} | {most:.2f} |", flush=True)


if __name__ == "__main__":
    main()

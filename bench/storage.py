#!/usr/bin/env python3
"""Counts what commands that work on storage cost: storage.py BINARY [CASE..], where BINARY is that of `cases`.

Each case is a script that is made here: commands that begin it, which aren't counted, and then those that are. The tree
is one of 4096 branches: eight directories below each other, and segments of two pages in the last, so that their paths
have nine names. Where the commands of a case don't all go into one script behind those that begin it, there are two. For
each case it prints the instructions a command, as valgrind's callgrind counts them in the steps of the machine that
brings the script to its end.
"""
import functools, os, random, re, subprocess, sys, tempfile

COUNT, MOST = 100_000, 99_990
HEAD = ["machine 1 512 1000 4 4 4", "quota 8000", "volume alpha 2048 4097", "process Smith"]
STEPS = ["end", "steps", "only nothing", "finish"]
DRAW = random.Random(7)
STEP = "machine::machine::Machine::step"


def directory(depth):
    return ">" + ">".join("abcdefgh"[:depth])


LAST = directory(8)
DIRECTORIES = [f"mkdir {directory(depth)} alpha" for depth in range(1, 9)]
TREE = DIRECTORIES + [f"mkseg {LAST}>s{i} 2 alpha" for i in range(4088)]
SMALLER = TREE[:3900]
KNOWN = TREE + [f"initiate {LAST}>s{i}" for i in range(250)]
STORED = KNOWN + [f"write {i} {1024 * page} 1" for i in range(250) for page in range(2)]
QUOTAS = TREE + [f"move {directory(depth)} +{100 - 10 * depth}" for depth in range(1, 9)]


def each(made, count=COUNT):
    return [made(i) for i in range(count)]


def pairs(first, second):
    return [command for i in range(COUNT // 2) for command in (first(i), second(i))]


def rounds(front, count):
    made = [f"mkseg {front}>s{i} 2 alpha" for i in range(count)] + [f"delete {front}>s{i}" for i in range(count)]
    return 12 * made


def segment(count=4088):
    return f"{LAST}>s{DRAW.randrange(count)}"


def word():
    return f"{DRAW.randrange(250)} {DRAW.randrange(2048)}"


CASES = {
    "mkseg and delete below the root": lambda: ([], rounds("", 4096)),
    "mkseg and delete": lambda: (DIRECTORIES, rounds(LAST, 4088)),
    "mkdir and delete": lambda: (SMALLER, pairs(lambda i: f"mkdir {directory(7)}>x{i % 97} alpha",
                                                lambda i: f"delete {directory(7)}>x{i % 97}")),
    "initiate and terminate": lambda: (TREE, pairs(lambda i: f"initiate {segment()}", lambda i: "terminate 0")),
    "status": lambda: (TREE, each(lambda i: f"status {segment()}")),
    "acl": lambda: (TREE, each(lambda i: f"acl {segment()} {DRAW.choice(['Jones', 'Brown', '*.Admin', '*'])} r")),
    "length": lambda: (TREE, each(lambda i: f"length {segment()} {1 + DRAW.randrange(4)}")),
    "move": lambda: (QUOTAS, pairs(lambda i: f"move {LAST} +1", lambda i: f"move {LAST} -1")),
    "truncate, where nothing is stored": lambda: (TREE, each(lambda i: f"truncate {segment(512)} 1024")),
    "truncate that cuts a page": lambda: (STORED, each(lambda i: f"truncate {segment(250)} {1025 + i % 1000}")),
    "write of a new page, and truncate": lambda: (KNOWN, pairs(lambda i: f"write {i % 250} 1024 1",
                                                              lambda i: f"truncate {LAST}>s{i % 250} 1024")),
    "read": lambda: (STORED, each(lambda i: f"read {word()}")),
    "await": lambda: (STORED, each(lambda i: f"await {word()} 0 1")),
    "write": lambda: (STORED, each(lambda i: f"write {word()} 1")),
    "add": lambda: (STORED, each(lambda i: f"add {word()} 1")),
}


@functools.lru_cache(maxsize=None)
def counted(binary, commands):
    """The instructions of all steps."""
    with tempfile.TemporaryDirectory() as folder:
        source, profile = os.path.join(folder, "case"), os.path.join(folder, "profile")
        with open(source, "w") as out:
            out.write("\n".join(["cases", "", "== a case", *HEAD, *commands, *STEPS, ""]))
        with open(source) as case:
            shown = subprocess.run(["valgrind", "--tool=callgrind", f"--callgrind-out-file={profile}",
                                    f"--toggle-collect={STEP}*", binary], stdin=case, capture_output=True, text=True)
        if shown.stdout != "== a case\n> only nothing\n> finish\n":
            sys.exit(f"refused: {shown.stdout[:200]}")
        lines = subprocess.run(["callgrind_annotate", "--inclusive=yes", "--threshold=100", profile],
                               capture_output=True, text=True).stdout
    return int(re.search(rf"^\s*([\d,]+) .*{STEP}\b", lines, re.M).group(1).replace(",", ""))


def scripts(first, then):
    """The commands that are counted, in as many parts as scripts are needed, each of an even count."""
    count = -(-len(then) // (MOST - len(first)))
    size = -(-len(then) // count)
    size += size % 2
    return [then[at:at + size] for at in range(0, len(then), size)]


def main():
    binary, *names = sys.argv[1:]
    print("| Commands | Instructions a command |\n|---|---|")
    for name in names or CASES:
        first, then = CASES[name]()
        before = counted(binary, tuple(first))
        after = [counted(binary, tuple(first + part)) for part in scripts(first, then)]
        print(f"| {name} | {(sum(after) - len(after) * before) // len(then):,} |", flush=True)


if __name__ == "__main__":
    main()

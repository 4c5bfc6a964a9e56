#!/usr/bin/env python3
"""Counts what steps of the machine cost: machine.py BINARY [CASE..], where BINARY is that of `cases`.

Each case is a script that is made here and brought to its end, once with so many commands of a kind and once with twice
as many. For each it prints how many steps a command takes, and the instructions a step, as valgrind's callgrind counts
them: with what the step calls, and without the room that is made before it. Behind that what a step costs that only
waits: a machine is brought to where a processor waits, and then that one makes so many steps, and twice as many. Last
the instructions and the peak of memory of whole runs, with the reading of their scripts and no listing.
"""
import os, random, re, subprocess, sys, tempfile

STEP = "machine::machine::Machine::step"


def script(processors, frames, pools, quota, volume, processes, persons=("Smith", "Smith")):
    lines = [f"machine {processors} {frames} {pools}", f"quota {quota}", f"volume alpha {volume}"]
    for person, commands in zip(persons, processes):
        lines += [f"process {person}"] + commands + ["end"]
    return lines


def hits(count):
    first = ["mkseg >s 1 alpha", "initiate >s", "write 0 0 1"]
    return script(1, 4, "12 1 1 1", 9, "16 8", [first + [f"read 0 {i % 1024}" for i in range(count)]])


def fills(count):
    first = ["mkseg >s 32 alpha", "initiate >s"] + [f"write 0 {1024 * page} 1" for page in range(32)]
    return script(1, 64, "12 1 1 1", 40, "64 8", [first + [f"read 0 {1024 * (i % 32)}" for i in range(count)]])


def evictions(count):
    first = ["mkseg >s 8 alpha", "initiate >s"]
    return script(1, 4, "12 1 1 1", 9, "16 8", [first + [f"write 0 {1024 * (i % 8)} 1" for i in range(count)]])


def waits(count):
    """Two processors that evict each other's pages, so that each waits for the other to drop them."""
    first = ["mkseg >s 8 alpha", "acl >s * rw", "initiate >s"]
    each = [first + [f"write 0 {1024 * ((i + start) % 8)} 1" for i in range(count)] for start in (0, 4)]
    return script(2, 4, "12 1 1 1", 9, "16 8", each)


CASES = {
    "references that hit": (hits, 10_000, "finish"),
    "references to 32 pages in turn, which an associative memory of 16 hasn't": (fills, 10_000, "finish"),
    "writes to 8 pages in turn in 4 frames": (evictions, 2_000, "finish"),
    "two such writes, one by each of two processes on two processors, in rounds": (waits, 1_000, "rounds"),
}


def owner():
    """Where processor 1 waits for processor 0, which has the supervisor."""
    commands = ["mkseg >s 1 alpha", "initiate >s", "write 0 0 5"]
    return script(2, 4, "12 1 1 1", 4, "8 4", [commands, commands]), ["step 0", "step 0", "step 1", "step 1", "step 0"], 1


def clear():
    """Where processor 0 waits for processor 1, which is to drop a segment."""
    first = ["mkseg >s 1 alpha", "acl >s Jones r", "initiate >s", "write 0 0 5", "acl >s Jones n"]
    return (script(2, 4, "12 1 1 1", 4, "8 4", [first, ["initiate >s", "read 0 0", "read 0 0"]], ["Smith", "Jones"]),
            ["step 0 until do 0.3", "step 1 until do 1.1", "step 0 until signal"], 0)


def transfer():
    """Where processor 0 waits for the page that processor 1 reads in."""
    first = ["mkseg >s 6 alpha", "acl >s Jones r", "initiate >s"] + [f"write 0 {1024 * page} 1" for page in range(6)]
    return (script(2, 4, "12 1 1 1", 9, "16 8", [first + ["read 0 0"], ["initiate >s", "read 0 0"]], ["Smith", "Jones"]),
            ["step 0 until do 0.8", "step 1 with 0 until start", "step 0 until waits transfer 2"], 0)


def idle():
    """Where processor 1 finds no process that is ready."""
    return script(2, 4, "12 1 1 1", 4, "8 4", [["mkseg >s 1 alpha"]]), ["step 0", "step 0", "step 1"], 1


WAITS = {
    "for the owner of the supervisor": owner,
    "for a processor that is to clear": clear,
    "for a page that is being read": transfer,
    "for a process that is ready": idle,
}


def references(processors, frames):
    draw = random.Random(5)
    commands = ["mkseg >s 256 alpha", "initiate >s"]
    for _ in range(99_997):
        offset = draw.randrange(256 * 1024)
        commands.append(f"read 0 {offset}" if draw.random() < 0.5 else f"write 0 {offset} {draw.randrange(511) + 1:o}")
    return script(processors, frames, "12 4 4 4", 1000, "4096 64", [commands])


def segments(count):
    commands = []
    for i in range(count):
        commands += [f"mkseg >s{i} 1 alpha", f"initiate >s{i}", "write 0 0 1", "terminate 0"]
    return script(1, 64, "1021 1 1 1", 16384, "4200 4097", [commands])


RUNS = {f"100,000 references over 256 pages, {frames} frames, {processors} processors":
        (lambda processors=processors, frames=frames: references(processors, frames))
        for frames in (4, 64, 1024) for processors in (1, 4, 8)}
RUNS["4000 segments over 1024 places"] = lambda: segments(4000)


def profiled(binary, lines, ends):
    """What callgrind tells of a case that goes on by these lines and prints no entry, and what it prints."""
    with tempfile.TemporaryDirectory() as folder:
        source, profile = os.path.join(folder, "case"), os.path.join(folder, "profile")
        with open(source, "w") as out:
            out.write("\n".join(["cases", "", "== a case", *lines, "steps", "only nothing", *ends, ""]))
        with open(source) as given:
            shown = subprocess.run(["valgrind", "--tool=callgrind", f"--callgrind-out-file={profile}", binary],
                                   stdin=given, capture_output=True, text=True)
        with open(profile) as told:
            return told.read(), shown.stdout


def counted(binary, lines, end):
    """How many steps a case takes, their instructions with those of what they call, and the instructions of all."""
    text, shown = profiled(binary, lines, [end])
    if shown != f"== a case\n> only nothing\n> {end}\n":
        sys.exit(f"not run: {shown[:200]}")
    return *calls(text, STEP), int(re.search(r"^(?:totals|summary): (\d+)", text, re.M).group(1))


def waited(binary, made, count):
    """How many steps a processor makes that waits so often after what leads there, and their instructions."""
    lines, ends, processor = made()
    text, shown = profiled(binary, lines, ends + [f"schedule {count} times {processor}"])
    if not shown.endswith("= none moved\n"):
        sys.exit(f"not waited: {shown[-200:]}")
    return calls(text, STEP)


def calls(text, name):
    """The calls of a function in a profile, and their instructions."""
    names, number, total, open_call = {}, 0, 0, None
    for line in text.split("\n"):
        found = re.match(r"c?fn=\((\d+)\)(?: (.*))?", line)
        if found and found.group(2):
            names[found.group(1)] = found.group(2)
        if line.startswith("cfn="):
            callee = names.get(found.group(1), "")
        elif line.startswith("calls="):
            open_call = int(line.split()[0][6:]) if name in callee and not callee.split(name)[1][:1].isidentifier() else None
        elif open_call is not None:
            number, total, open_call = number + open_call, total + int(line.split()[1]), None
    return number, total


def peak(binary, lines):
    given = "cases\n\n== a case\n" + "\n".join(lines) + "\nsteps\nonly nothing\nfinish\n"
    child = subprocess.run(["/usr/bin/time", "-f", "%M", binary], input=given, capture_output=True, text=True)
    return int(child.stderr.split()[-1]) / 1024


def main():
    binary, *names = sys.argv[1:]
    print("| Commands | Steps a command | Instructions a step |\n|---|---|---|")
    for name, (made, count, end) in CASES.items():
        if not names or name in names:
            few, less, _ = counted(binary, made(count), end)
            many, more, _ = counted(binary, made(2 * count), end)
            print(f"| {name} | {(many - few) / count:.2f} | {(more - less) / (many - few):,.0f} |", flush=True)
    print("\n| A step that waits | Instructions |\n|---|---|")
    for name, made in WAITS.items():
        if not names or name in names:
            few, less = waited(binary, made, 10_000)
            many, more = waited(binary, made, 20_000)
            print(f"| {name} | {(more - less) / (many - few):,.0f} |", flush=True)
    print("\n| Run | Steps | Instructions | Peak |\n|---|---|---|---|")
    for name, made in RUNS.items():
        if not names or name in names:
            lines = made()
            steps, _, total = counted(binary, lines, "finish")
            print(f"| {name} | {steps:,} | {total / 1e6:,.1f} M | {peak(binary, lines):,.1f} MiB |", flush=True)


if __name__ == "__main__":
    main()

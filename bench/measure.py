#!/usr/bin/env python3
"""Measures `multics run`: measure.py BINARY [--instructions] [--repeat N] [CASE..]

Each case is a script that is made here. For each it prints the exit status, the bytes in and out, the least and the
middle wall time, the peak of memory (GNU time's), and with --instructions what valgrind's callgrind counts.
"""
import argparse, os, random, statistics, subprocess, tempfile, time

SOURCE_LIMIT = 4_194_304


def references(frames):
    """100,000 commands, 99,997 of them references at random over a segment of 256 pages, half of them reads."""
    draw = random.Random(5)
    lines = [f"machine 1 {frames} 12 4 4 4", "quota 1000", "volume alpha 4096 64", "process Smith",
             "mkseg >s 256 alpha", "initiate >s"]
    for _ in range(99_997):
        offset = draw.randrange(256 * 1024)
        lines.append(f"read 0 {offset}" if draw.random() < 0.5 else f"write 0 {offset} {draw.randrange(511) + 1:o}")
    return "\n".join(lines + ["end"]) + "\n"


def unended(commands):
    """So many references and no end: a script that is read and then refused."""
    lines = references(64).split("\n")[:commands + 4]
    return "\n".join(lines) + "\n"


def segments(count):
    """So many segments of a page each."""
    lines = ["machine 1 64 12 4 4 4", "quota 1000", "volume alpha 8 4097", "process Smith"]
    return "\n".join(lines + [f"mkseg >s{i} 1 alpha" for i in range(count)] + ["end"]) + "\n"


CASES = {
    "references over 4 frames": lambda: references(4),
    "references over 64 frames": lambda: references(64),
    "references over 1024 frames": lambda: references(1024),
    "1024 segments": lambda: segments(1024),
    "2048 segments": lambda: segments(2048),
    "4096 segments": lambda: segments(4096),
    "99,999 commands without an end": lambda: unended(99_999),
    "50,000 commands without an end": lambda: unended(50_000),
    "a comment as long as a script": lambda: "#" * SOURCE_LIMIT,
    "line feeds as many as a script has bytes": lambda: "\n" * SOURCE_LIMIT,
    "a line as long as a script": lambda: "a" * SOURCE_LIMIT,
    "the first half of a comment": lambda: "#" * (SOURCE_LIMIT // 2),
    "the first half of the line feeds": lambda: "\n" * (SOURCE_LIMIT // 2),
    "the first half of the line": lambda: "a" * (SOURCE_LIMIT // 2),
}


def run(binary, path, repeat):
    times, peak = [], 0
    for _ in range(repeat):
        with open(path) as source:
            start = time.perf_counter()
            child = subprocess.run(["/usr/bin/time", "-f", "%M", binary, "run"], stdin=source, capture_output=True)
            times.append((time.perf_counter() - start) * 1000)
            peak = max(peak, int(child.stderr.split()[-1]))
    return child.returncode, len(child.stdout), min(times), statistics.median(times), peak


def instructions(binary, path):
    with open(path) as source:
        count = subprocess.run(["valgrind", "--tool=callgrind", "--callgrind-out-file=/dev/null", binary, "run"],
                               stdin=source, stdout=subprocess.DEVNULL, stderr=subprocess.PIPE, text=True)
    return next((line.split(":")[-1].strip() for line in count.stderr.split("\n") if "Collected" in line), "?")


def main():
    options = argparse.ArgumentParser()
    options.add_argument("binary")
    options.add_argument("cases", nargs="*", metavar="CASE")
    options.add_argument("--instructions", action="store_true")
    options.add_argument("--repeat", type=int, default=5)
    options = options.parse_args()
    print("| Case | Status | Bytes in | Bytes out | Least | Middle | Peak | Instructions |")
    print("|---|---|---|---|---|---|---|---|")
    for name in options.cases or CASES:
        with tempfile.NamedTemporaryFile("w", suffix=".script") as file:
            file.write(CASES[name]())
            file.flush()
            status, written, least, middle, peak = run(options.binary, file.name, options.repeat)
            counted = instructions(options.binary, file.name) if options.instructions else ""
            print(f"| {name} | {status} | {os.path.getsize(file.name)} | {written} | {least:.1f} ms | {middle:.1f} ms"
                  f" | {peak / 1024:.1f} MiB | {counted} |", flush=True)


if __name__ == "__main__":
    main()

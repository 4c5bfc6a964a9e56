#!/usr/bin/env python3
"""Says where the instructions of whole runs go: parts.py BINARY SCRIPT.., where BINARY is that of `multics`.

For each script it prints the instructions of `multics run`, as valgrind's callgrind counts them, and those of its parts,
each with what it calls: the script is read, the drives' pages are made, the tables are made, the steps, and the rest:
reading the bytes, room for entries, the lock, the shutdown, the listing and its writing.
"""
import os
import re
import subprocess
import sys
import tempfile

PARTS = {
    "reading": "script::reader::read_script",
    "drives": "volumes::core_drive::CoreDrive::new",
    "tables": "machine::machine::Machine::boot",
    "steps": "machine::machine::Machine::step",
}


def counted(binary, script):
    """The instructions of a run, and of each part."""
    with tempfile.TemporaryDirectory() as at:
        out = os.path.join(at, "out")
        with open(script, "rb") as given:
            subprocess.run(["valgrind", "--tool=callgrind", f"--callgrind-out-file={out}", binary, "run"], stdin=given,
                           stdout=subprocess.DEVNULL, stderr=subprocess.DEVNULL, check=True)
        text = subprocess.run(["callgrind_annotate", "--inclusive=yes", "--threshold=100", "--show-percs=no", out],
                              capture_output=True, text=True, check=True).stdout
    lines = re.findall(r"^\s*([\d,]+)\s+\S*?\?:(\S+?)(?:::<\S*>)? \[", text, re.M)
    counts = {name: int(count.replace(",", "")) for count, name in reversed(lines)}
    total = int(re.search(r"([\d,]+)\s+PROGRAM TOTALS", text).group(1).replace(",", ""))
    return total, [counts.get(name, 0) for name in PARTS.values()]


def main():
    binary, scripts = sys.argv[1], sys.argv[2:]
    print("| Script | All | " + " | ".join(PARTS) + " | rest |")
    print("|---|---|" + "---|" * (len(PARTS) + 1))
    for script in scripts:
        total, parts = counted(binary, script)
        cells = [f"{count / 1e6:.1f} M" for count in (total, *parts, total - sum(parts))]
        print(f"| {os.path.basename(script)} | " + " | ".join(cells) + " |", flush=True)


main()

#!/usr/bin/env python3
"""Counts what segment control costs in runs: segments.py BINARY [CASE..], where BINARY is that of `cases`.

Each case is a script that is made here and brought to its end, with 64 segments active, 16 in each pool, and with 1024,
256 in each. The compiler puts the calls of `seg_control` into those of `machine_tables` and `machine`. Where a method of
`Tables` has just one of them in it, that one is counted, with what it calls; else the case is run with so many commands
and with twice as many, and the difference of all steps is told for each command, or each round of commands.
"""
import sys
from machine import STEP, calls, profiled

LENGTHS = (4, 16, 64, 256)


def fillers(pool, count):
    """Commands after which so many segments of a pool are active, and known to nobody."""
    made = []
    for i in range(count):
        made += [f"mkseg >f{pool}{i} {LENGTHS[pool]} alpha", f"initiate >f{pool}{i}", "read 0 0", "terminate 0"]
    return made


def filled(places, but):
    """Commands that fill the table but for a few places of the first pool."""
    return fillers(0, places - but) + [command for pool in (1, 2, 3) for command in fillers(pool, places)]


def script(places, processes):
    lines = [f"machine 1 4 {places} {places} {places} {places}", "quota 64", "volume alpha 64 2048"]
    for commands in processes:
        lines += ["process Smith", *commands, "end"]
    return lines


def activations(places, count):
    """References to segments of which each has a directory of its own, more of both than the first pool has places."""
    made = [command for pool in (1, 2, 3) for command in fillers(pool, places)]
    for i in range(min(places, 250)):
        made += [f"mkdir >d{i} alpha", f"mkseg >d{i}>s 1 alpha", f"initiate >d{i}>s"]
    return script(places, [made + [f"read {i % min(places, 250)} 0" for i in range(count)]])


def references(places, rounds, commands):
    """Processes of which each refers to one segment in its turn of 16 commands; the first has others in between. All
    have a share in what fills the table, so that they begin with it together."""
    first, fill = ["mkseg >s 1 alpha", "acl >s * rw"], filled(places, 3)
    turns = [commands[i // 16 % len(commands)] if i % 16 == 0 else "read 0 0" for i in range(16 * rounds)]
    share = [[command for at in range(4 * k, len(fill), 128) for command in fill[at:at + 4]] for k in range(32)]
    return script(places, [first + share[0] + ["initiate >s"] + turns]
                  + [share[k] + ["initiate >s"] + rounds * 16 * ["read 0 0"] for k in range(1, 32)])


def rights(places, rounds):
    """A right that changes in each round, so that all 32 descriptors are cut and connected again."""
    return references(places, rounds, ["acl >s * r", "acl >s * rw"])


def no_rights(places, rounds):
    """The same, with a look at the segment in place of the change."""
    return references(places, rounds, ["status >s"])


def transfers(places, count):
    """Writes to eight pages in turn in four frames."""
    made = ["mkseg >s 4 alpha", "mkseg >t 4 alpha", "initiate >s", "initiate >t"]
    writes = [f"write {i % 8 // 4} {1024 * (i % 4)} 1" for i in range(count)]
    return script(places, [filled(places, 3) + made + writes])


CASES = {
    "activations and deactivations": (activations, None, 60_000, ["join_next", "deactivate"], "a reference"),
    "32 descriptors that are cut and connected again": (rights, no_rights, 75, ["cut_one"], "a round"),
    "pages that leave a frame and come in": (transfers, None, 10_000, ["let_go"], "a write"),
}


def told_by_method(binary, made, count, method):
    """How often a method was called and its instructions a call, in both tables."""
    row = []
    for places in (16, 256):
        number, total = calls(profiled(binary, made(places, count), ["finish"])[0], f"machine_tables::tables::Tables::{method}")
        row += [f"{number:,}", f"{total / max(number, 1):,.0f}"]
    return row


def told_by_steps(binary, made, other, count):
    """How many commands or rounds more there were, and the instructions of the steps of each, in both tables."""
    def more(made, places):
        few, many = (calls(profiled(binary, made(places, n), ["finish"])[0], STEP)[1] for n in (count, 2 * count))
        return many - few
    row = []
    for places in (16, 256):
        row += [f"{count:,}", f"{(more(made, places) - (more(other, places) if other else 0)) / count:,.0f}"]
    return row


def main():
    binary, *names = sys.argv[1:]
    print("| Case | Counted | Times | With 64 active | Times | With 1024 active |\n|---|---|---|---|---|---|")
    for name, (made, other, count, methods, each) in CASES.items():
        if names and name not in names:
            continue
        for method in methods:
            print(f"| {name} | `{method}` | {' | '.join(told_by_method(binary, made, count, method))} |", flush=True)
        few = count // 3 if made is activations else count
        print(f"| {name} | {each} | {' | '.join(told_by_steps(binary, made, other, few))} |", flush=True)


if __name__ == "__main__":
    main()

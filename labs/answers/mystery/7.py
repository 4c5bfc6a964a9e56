"""A processor gives its process up after fifteen answers, one too early."""


def run(script, _):
    """The listing of the script, where a `leave` after sixteen answers stands before the last of them.

    Where the sixteenth is the initializer's last, nobody was ready before it, and nothing changes.
    """
    lines, out = printed("multics", "run", script).splitlines(), []
    first = "initializer" in script.split()
    for at, line in enumerate(lines):
        out.append(line)
        if line.startswith("leave ") and lines[at + 1].startswith("load ") and is_turn(out, first):
            before = next(it for it in range(len(out) - 2, -1, -1) if out[it - 1].startswith("do "))
            out = [*out[:before], line, *out[before:-1]]
    print("\n".join(out))


def is_turn(lines, first):
    """Whether the process made sixteen answers since it was loaded, and isn't the initializer at its end."""
    start = max(at for at, line in enumerate(lines) if line.startswith("load "))
    count = sum(line.startswith("do ") for line in lines[start:])
    return count == 16 and not (first and lines[start] == "load 0 0" and lines[-2].endswith(" done"))

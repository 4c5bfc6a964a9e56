"""What was cut or taken is gone at once: the processor that told the others doesn't wait until they have dropped it."""


def run(script, _):
    """The listing of the script by its schedule, where the others drop it only after the answer for which it went."""
    late = []
    for line in printed("lab", "steps", script).splitlines():
        if line.startswith("clear "):
            late.append(line)
            continue
        print(line)
        if line.startswith("do "):
            print("".join(f"{it}\n" for it in late), end="")
            late = []
    print("".join(f"{it}\n" for it in late), end="")

"""The crates of crates.txt, and what their proofs cost by docs/COSTS.md."""
import os
import re

TOP = os.path.dirname(os.path.dirname(os.path.realpath(__file__)))
SLOWDOWN = 1.5  # how many seconds a second of docs/COSTS.md takes where all processors are busy with proofs


def lines_of(path):
    with open(f"{TOP}/{path}", encoding="utf-8") as file:
        return file.read().split("\n")


def libraries():
    """What each crate of crates.txt stands on directly, by its name, in the order of the file."""
    below = {}
    for line in lines_of("crates.txt"):
        name, colon, uses = line.partition("#")[0].partition(":")
        if colon:
            below[name.split()[0]] = uses.split()
    return below


def seconds():
    """The processor seconds of each crate's proof: the first number of its row, or that of its place among several."""
    found = {}
    for line in lines_of("docs/COSTS.md"):
        cells = [cell.strip() for cell in line.strip("| ").split("|")]
        names = re.findall(r"`(\w+)`", cells[0])
        figures = [re.findall(r"\d+", cell) for cell in cells[1:]]
        proofs = next((figure for figure in figures if figure), [])
        if line.startswith("| `") and len(proofs) == len(names):
            found.update(zip(names, map(int, proofs)))
    return found


def with_below(crate, below):
    """A crate with all that it stands on, the lowest first."""
    order = []

    def place(name):
        if name in below and name not in order:
            for library in below[name]:
                place(library)
            order.append(name)

    place(crate)
    return order


def heights(crates, below, known):
    """For each of these crates the seconds of the longest chain from it up to the top."""
    found = {}
    for name in reversed(crates):
        above = [found[one] for one in crates if one in found and name in below[one]]
        found[name] = known.get(name, 0) + max(above, default=0)
    return found


def clock(crates, below, known, lanes):
    """The minutes by the clock that proofs of these crates should take, so many side by side, the longest chain first."""
    height, done, running, now = heights(crates, below, known), set(), {}, 0
    waiting = sorted(crates, key=lambda name: -height[name])
    while waiting or running:
        ready = [name for name in waiting if all(one in done or one not in crates for one in below[name])]
        for name in ready[:lanes - len(running)]:
            running[name] = now + known.get(name, 0)
            waiting.remove(name)
        now = min(running.values())
        done |= {name for name, end in running.items() if end == now}
        running = {name: end for name, end in running.items() if end > now}
    return now * SLOWDOWN / 60

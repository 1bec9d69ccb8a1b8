#!/usr/bin/env python3
"""The tiles through the listing, as a table: reads what example.c prints (a command with its answer, then the image after it,
in hex) and shows each member's entries and gaps. It goes by the rules paper's layout of an image and by nothing else."""
import sys


def taker(image):
    """Gives the image's fields one after another."""
    bits = "".join("{:08b}".format(byte) for byte in image)
    at = 0

    def take(width):
        nonlocal at
        field = bits[at:at + width]
        at += width
        return int(field, 2)

    return take


def members(image):
    """Each member as text: LOW, gaps as (version), entries as name@version=value, HIGH."""
    take = taker(image)
    take(4)
    count = take(3) + 1
    take(7)
    take(7)
    for _ in range(count):
        take(4)
    tiles = []
    for _ in range(count):
        entries = take(6)
        text = "LOW ({})".format(take(24))
        for _ in range(entries):
            name, version, value, gap = take(20), take(24), take(16), take(24)
            text += " {}@{}={} ({})".format(name, version, value, gap)
        tiles.append(text + " HIGH")
    return tiles


def main():
    before = []
    print("| Line | Bench answer | Member 0 | Member 1 | Member 2 |")
    print("|---|---|---|---|---|")
    lines = [line.rstrip("\n") for line in sys.stdin]
    for said, shown in zip(lines, lines[1:]):
        if not shown.startswith("image "):
            continue
        command, _, answer = said.partition(": ")
        tiles = members(bytes.fromhex(shown[len("image "):]))
        cells = [tile if before and tile == old else "**{}**".format(tile)
                 for tile, old in zip(tiles, before or [None] * len(tiles))]
        print("| `{}` | {} | {} |".format(command, answer or "fresh", " | ".join(cells)))
        before = tiles


main()

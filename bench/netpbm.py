#!/usr/bin/env python3
"""Sets the driver against Netpbm's own tools (pamfile, pnmtoplainpnm, pbmmake, pnmtile, pnmpad).

  bench/netpbm.py [PROGRAM]

The driver's bitmap is read by Netpbm and compared with the driver's answers to `shows`; plans that Netpbm writes are read by
the driver and compared with the same plans as random_plans.py writes them. The status is 0 when all agree.
"""
import os
import random
import subprocess
import sys
import tempfile

import random_plans

HERE = os.path.dirname(os.path.abspath(__file__))
PROGRAM = sys.argv[1] if len(sys.argv) > 1 else os.path.join(HERE, "../crates/drill/out/drill")
PILES = ["exact", "memory-exact", "both-wedge-exact", "memory-both-wedge-exact", "both-wedge-memory-exact", "memory-memory-exact"]


def tool(words, given=b""):
    return subprocess.run(words, input=given, capture_output=True, check=True).stdout


def drive(folder, text, pile, orders):
    plan_file = os.path.join(folder, "plan")
    with open(plan_file, "wb") as out:
        out.write(text)
    return subprocess.run([PROGRAM, plan_file, pile], input=b"\n".join(orders), capture_output=True).stdout.decode().splitlines()


def answers(lines):
    return [line.rsplit(": ", 1)[-1] for line in lines[1:]]


def picture_agrees(rng, folder):
    """Netpbm reads the bitmap as a picture whose pixels are the answers to `shows`."""
    plan = random_plans.grid(rng, 40) if rng.random() < 0.5 else random_plans.polygons(rng, 12)
    rooms = plan.rooms()
    shows = [b"shows %d %d" % (a, b) for a in range(rooms) for b in range(rooms)]
    orders = [b"bitmap"] + [b"fill %d" % a for a in range(rooms)] + shows + [b"bitmap"]
    said = answers(drive(folder, random_plans.written(rng, plan), rng.choice(PILES), orders))
    picture = bytes.fromhex(said[-1])
    plain = tool(["pnmtoplainpnm"], picture).split()
    heading, pixels = plain[:3], b"".join(plain[3:]).decode()
    kind = tool(["pamfile"], picture).decode()
    shown = "".join({"yes": "1", "no": "0"}[answer] for answer in said[1 + rooms:-1])
    return (said[0] == "refused 2" and well_packed(picture, rooms) and "PBM raw, %d by %d" % (rooms, rooms) in kind
            and heading == [b"P1", b"%d" % rooms, b"%d" % rooms] and pixels == shown)


def well_packed(picture, rooms):
    """There are as many bytes as the picture needs, and the spare bits are 0."""
    start = len(b"P4\n%d %d\n" % (rooms, rooms))
    width = (rooms + 7) // 8
    rows = [picture[start + width * a:start + width * (a + 1)] for a in range(rooms)]
    spare = 8 * width - rooms
    return len(picture) == start + width * rooms and all(row[-1] % (1 << spare) == 0 for row in rows)


def raw(plan):
    """A grid plan as raw PBM."""
    rows = b""
    for row in plan.rows:
        bits = "".join(str(pixel) for pixel in row)
        bits += "0" * (-len(bits) % 8)
        rows += bytes(int(bits[k:k + 8], 2) for k in range(0, len(bits), 8))
    return b"P4\n%d %d\n" % (2 * plan.w + 1, 2 * plan.h + 1) + rows


def plan_agrees(rng, folder):
    """A plan as Netpbm writes it is read as the same plan."""
    plan = random_plans.grid(rng, 256)
    orders = [b"fill 0", b"fill %d" % (plan.rooms() - 1), b"witness 0 %d" % (plan.rooms() - 1)]
    from_netpbm = drive(folder, tool(["pnmtoplainpnm"], raw(plan)), "exact", orders)
    ours = drive(folder, random_plans.written(rng, plan), "exact", orders)
    return from_netpbm == ours and ours[0] == "plan: %d rooms, %d doorways" % (plan.rooms(), plan.doorways())


def open_grid(folder, w, h):
    """An open grid put together by Netpbm alone: tiles of a room, two doorways and a corner, with a border around."""
    tile_file = os.path.join(folder, "tile")
    with open(tile_file, "wb") as out:
        out.write(tool(["pnmpad", "-black", "-right", "1"], tool(["pbmmake", "-white", "1", "1"])))
    corner = tool(["pnmpaste", tile_file, "0", "1"], tool(["pbmmake", "-white", "2", "2"]))
    tiles = tool(["pnmtile", str(2 * w - 1), str(2 * h - 1)], corner)
    return tool(["pnmtoplainpnm"], tool(["pnmpad", "-black", "-left", "1", "-right", "1", "-top", "1", "-bottom", "1"], tiles))


def open_grid_agrees(folder, w, h):
    lines = drive(folder, open_grid(folder, w, h), "memory-exact", [b"fill 0"])
    return lines[0] == "plan: %d rooms, %d doorways" % (w * h, (w - 1) * h + w * (h - 1))


def plain_colours(folder):
    """A black or a white picture is no plan: its first wrong pixel is refused."""
    black, white = (tool(["pnmtoplainpnm"], tool(["pbmmake", colour, "5", "5"])) for colour in ("-black", "-white"))
    start = black.index(b"1", len(b"P1\n5 5"))
    return (drive(folder, black, "exact", []) == ["refused 16 layer 3 at %d" % (start + (5 + 1 + 1))]
            and drive(folder, white, "exact", []) == ["refused 16 layer 3 at %d" % start])


def main():
    rng = random.Random(1991)
    with tempfile.TemporaryDirectory() as folder:
        pictures = [picture_agrees(rng, folder) for _ in range(150)]
        plans = [plan_agrees(rng, folder) for _ in range(150)]
        plans += [open_grid_agrees(folder, w, h) for w, h in ((1, 1), (2, 2), (3, 5), (16, 16), (40, 6), (1, 256), (256, 1))]
        plans.append(plain_colours(folder))
    wrong = pictures.count(False) + plans.count(False)
    print("netpbm: %d bitmaps and %d plans, %d wrong" % (len(pictures), len(plans), wrong))
    sys.exit(1 if wrong else 0)


main()

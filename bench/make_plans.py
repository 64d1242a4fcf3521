#!/usr/bin/env python3
"""Writes plans to measure with into the folder that is named: open grids, and squares as polygons.
  grid-WxH.pbm      W by H rooms with every doorway open
  squares-WxH.off   the same rooms as squares that share their whole edges
"""
import os
import sys


def grid(w, h):
    rows = []
    for y in range(2 * h + 1):
        row = ""
        for x in range(2 * w + 1):
            border = x in (0, 2 * w) or y in (0, 2 * h)
            row += "1" if border or (x % 2 == 0 and y % 2 == 0) else "0"
        rows.append(row)
    return "P1\n%d %d\n%s\n" % (2 * w + 1, 2 * h + 1, "\n".join(rows))


def squares(w, h):
    corners = ["%d %d 0" % (4 * x, 4 * y) for y in range(h + 1) for x in range(w + 1)]
    faces = []
    for y in range(h):
        for x in range(w):
            a = y * (w + 1) + x
            faces.append("4 %d %d %d %d" % (a, a + 1, a + w + 2, a + w + 1))
    return "OFF\n%d %d 0\n%s\n" % (len(corners), len(faces), "\n".join(corners + faces))


def main():
    folder = sys.argv[1] if len(sys.argv) > 1 else "."
    os.makedirs(folder, exist_ok=True)
    for w, h in ((8, 8), (12, 12), (16, 16), (256, 1)):
        with open(os.path.join(folder, "grid-%dx%d.pbm" % (w, h)), "w") as out:
            out.write(grid(w, h))
        with open(os.path.join(folder, "squares-%dx%d.off" % (w, h)), "w") as out:
            out.write(squares(w, h))


main()

#!/usr/bin/env python3
"""Plans at the limits of the rules, each with the first line that the driver must say, worked by hand.

  bench/limits.py PROGRAM..

Each program is run on each plan. The status is 0 when every program says what it must.
"""
import os
import subprocess
import sys
import tempfile

ROOM = b"P1 3 3 111101111"
TRIANGLE = b"OFF 3 1 0 0 0 0 1 0 0 0 1 0 3 0 1 2"


def said(rooms, doorways):
    return "plan: %d rooms, %d doorways" % (rooms, doorways)


def refused(number, layer, place):
    return "refused %d layer %d at %d" % (number, layer, place)


def row_of_rooms(rooms):
    """Rooms side by side with every doorway open."""
    wall = b"1" * (2 * rooms + 1)
    return b"P1 %d 3 " % (2 * rooms + 1) + wall + b"1" + b"0" * (2 * rooms - 1) + b"1" + wall


def headings():
    for start in (b"", b"P", b"p1 3 3", b" P1 3 3", b"P4 3 3", b"P13 3 3", b"P1\x00", b"P1\x083 3", b"P1\x0e3",
                  b"O", b"OF", b"off 3", b"OFF3", b"OFF#", b"OFFF "):
        yield start, refused(13, 2, 0)
    yield b"P1", refused(12, 1, 2)
    yield b"OFF", refused(12, 1, 3)
    yield b"P1 ", refused(12, 1, 3)
    yield b"OFF\n\n", refused(12, 1, 5)


def white_space():
    """Each byte behind a number, between pixels and behind a whole plan."""
    for byte in range(256):
        gap = bytes([byte])
        behind_number, between_pixels = refused(10, 1, 4), refused(10, 1, 11)
        behind_plans = [refused(15, 2, len(ROOM)), refused(15, 2, len(TRIANGLE) + 1)]
        if gap in b"\t\n\x0b\x0c\r ":
            behind_number = between_pixels = said(1, 0)
            behind_plans = [said(1, 0)] * 2
        elif gap.isdigit():
            behind_number = refused(11, 1, 7)
            between_pixels = {b"0": refused(16, 3, 12), b"1": refused(16, 3, 11)}.get(gap, between_pixels)
        yield b"P1 3" + gap + b"3 111101111", behind_number
        yield b"P1 3 3 1111" + gap + b"01111", between_pixels
        yield ROOM + gap, behind_plans[0]
        yield TRIANGLE + b" " + gap, behind_plans[1]


def grid_sizes():
    for size in (0, 1, 2, 4, 100, 999_998):
        yield b"P1 %d 3 " % size, refused(14, 2, 3)
        yield b"P1 3 %d " % size, refused(14, 2, 5)
    yield ROOM, said(1, 0)
    yield row_of_rooms(256), said(256, 255)
    yield row_of_rooms(257), refused(14, 2, 7)
    yield b"P1 33 33", refused(12, 1, 8)
    yield b"P1 33 35", refused(14, 2, 6)
    yield b"P1 999999 999999 1", refused(14, 2, 10)
    yield b"P1 000003 000003 111101111", said(1, 0)
    yield b"P1 0000003 3 111101111", refused(11, 1, 3)
    yield b"P1 3 1234567x", refused(11, 1, 5)
    yield b"P1 3 123456x", refused(10, 1, 11)
    yield b"P1 -3 3 111101111", refused(10, 1, 3)
    yield b"P1 3 3111101111", refused(11, 1, 5)
    yield b"P1 3 3 111101112", refused(10, 1, 15)
    yield b"P1 3 3 11110111", refused(12, 1, 15)
    yield b"P1 3 3 1111011111", refused(15, 2, 16)
    for place in range(9):
        pixels = bytearray(b"111101111")
        pixels[place] ^= 1
        yield b"P1 3 3 " + bytes(pixels), refused(16, 3, 7 + place)


def long_texts():
    for plan, rooms in ((ROOM, 1), (TRIANGLE, 1)):
        for length in (59_999, 60_000):
            yield plan.ljust(length), said(rooms, 0)
        for length in (60_001, 70_000, 200_000):
            yield plan.ljust(length), refused(14, 2, 60_000)
            yield b"OFF".ljust(length, b"x"), refused(14, 2, 60_000)
            yield b"x" * length, refused(14, 2, 60_000)


def polygon_counts():
    yield TRIANGLE, said(1, 0)
    yield b"OFF 2 1 0 0 0 0", refused(14, 2, 4)
    yield b"OFF 1025 1 0 0 0 0", refused(14, 2, 4)
    yield b"OFF 3 0 0 0 0 0", refused(14, 2, 6)
    yield b"OFF 3 257 0 0 0 0", refused(14, 2, 6)
    yield b"OFF 3 1 1000000 0 0 0", refused(11, 1, 8)
    yield b"OFF 3 1 -1 0 0 0", refused(10, 1, 8)
    yield TRIANGLE.replace(b"3 1 0", b"3 1 999999"), said(1, 0)
    yield squares_apart(256), said(256, 0)
    yield squares_apart(257), refused(14, 2, 4)


def squares_apart(count):
    corners = [b"%d %d 0" % (3 * k + x, y) for k in range(count) for x, y in ((0, 0), (1, 0), (1, 1), (0, 1))]
    faces = [b"4 %d %d %d %d" % tuple(range(4 * k, 4 * k + 4)) for k in range(count)]
    return b"OFF %d %d 0\n" % (4 * count, count) + b"\n".join(corners + faces)


def coordinates():
    far = b"OFF 3 1 0 -10000 -10000 -0 10000 -010000 00 0 10000 -00 3 0 1 2"
    yield far, said(1, 0)
    yield b"OFF 3 1 0 0 0 0 10001 0 0", refused(17, 3, 16)
    yield b"OFF 3 1 0 0 0 0 1 -10001 0", refused(17, 3, 18)
    yield b"OFF 3 1 0 0 0 1 1 0 0", refused(17, 3, 14)
    yield b"OFF 3 1 0 0 0 -1 1 0 0", refused(17, 3, 14)
    yield b"OFF 3 1 0 -123456 0", refused(17, 3, 10)
    yield b"OFF 3 1 0 -1234567 0", refused(11, 1, 10)
    yield b"OFF 3 1 0 -0000000 0", refused(11, 1, 10)
    yield b"OFF 3 1 0 - 1", refused(10, 1, 11)
    yield b"OFF 3 1 0 --1", refused(10, 1, 11)
    yield b"OFF 3 1 0 1-1", refused(10, 1, 11)
    yield b"OFF 3 1 0 +1", refused(10, 1, 10)
    yield b"OFF 3 1 0 -", refused(12, 1, 11)
    yield b"OFF 3 1 0 10001", refused(17, 3, 10)


def faces():
    corners = b"OFF 4 1 0 0 0 0 1 0 0 1 1 0 0 1 0 "
    start = len(corners)
    for face in (b"4 0 1 2 3", b"4 1 2 3 0", b"3 0 1 3"):
        yield corners + face, said(1, 0)
    for face in (b"4 3 2 1 0", b"4 0 1 3 2", b"4 0 1 1 2", b"8 0 1 2 3 0 1 2 3"):
        yield corners + face, refused(19, 3, 0)
    yield corners + b"2 0 1", refused(18, 3, start)
    yield corners + b"17 0", refused(18, 3, start)
    yield corners + b"3 0 1 4", refused(18, 3, start + 6)
    yield corners + b"3 0 -1 2", refused(10, 1, start + 4)
    yield corners + b"3 0 1 2 3", refused(15, 2, start + 8)
    yield corners + b"4 0 1 2", refused(12, 1, start + 7)
    yield b"OFF 4 1 0 0 0 0 1 0 0 2 0 0 0 1 0 4 0 1 2 3", refused(19, 3, 0)
    yield b"OFF 3 1 0 0 0 0 1 0 0 2 0 0 3 0 1 2", refused(19, 3, 0)
    two = b"OFF 4 2 0 0 0 0 1 0 0 1 1 0 0 1 0 "
    yield two + b"3 0 1 2 3 0 2 3", said(2, 1)
    yield two + b"3 0 1 2 3 0 1 2", refused(20, 3, 1)
    yield two + b"3 0 1 2 3 0 1 3", refused(20, 3, 1)
    yield two + b"3 0 1 2 3 2 1 0", refused(19, 3, 1)
    three = b"OFF 4 3 0 0 0 0 1 0 0 1 1 0 0 1 0 "
    yield three + b"3 0 1 2 3 0 1 3 3 2 1 0", refused(19, 3, 2)
    yield three + b"3 0 1 2 3 1 2 3 3 0 1 3", refused(20, 3, 1)
    yield three + b"3 0 1 2 3 0 2 3 3 1 2 0", refused(20, 3, 2)


def wheel():
    """A face of sixteen corners on the parabola, and one of seventeen."""
    for sides in (16, 17):
        corners = b" ".join(b"%d %d 0" % (k, k * k) for k in range(sides))
        head = b"OFF %d 1 0 " % sides + corners + b" "
        face = b" ".join(b"%d" % k for k in [sides] + list(range(sides)))
        yield head + face, said(1, 0) if sides == 16 else refused(18, 3, len(head))


def all_limits():
    for family in (headings, white_space, grid_sizes, long_texts, polygon_counts, coordinates, faces, wheel):
        yield from family()


def main():
    wrong, runs = 0, 0
    with tempfile.TemporaryDirectory() as folder:
        plan_file = os.path.join(folder, "plan")
        for text, line in all_limits():
            with open(plan_file, "wb") as out:
                out.write(text)
            for program in sys.argv[1:]:
                done = subprocess.run([program, plan_file, "exact"], input=b"", capture_output=True)
                runs += 1
                if done.stdout.decode().strip() != line or done.returncode != line.startswith("refused"):
                    wrong += 1
                    print("%s on %r: %r, not %r" % (program, text[:80], done.stdout, line))
    print("limits: %d runs, %d wrong" % (runs, wrong))
    sys.exit(1 if wrong else 0)


main()

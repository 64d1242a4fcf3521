#!/usr/bin/env python3
"""Orders for small plans, each with the answer that the driver must give, worked by hand.

  bench/worked.py PROGRAM..

The square of four rooms has a doorway in each inner wall. The hall has ten rooms, of which 0, 1, 6, 7, 8 and 9 lie along a bent
way. The status is 0 when every program answers as it must.
"""
import os
import subprocess
import sys
import tempfile

SQUARE = b"P1 5 5 11111 10001 10101 10001 11111"
HALL = b"P1 11 5 11111111111 10001010101 11101111111 10100000001 11111111111"
TWO_TRIANGLES = b"OFF 4 2 0 0 0 0 4 0 0 4 4 0 0 4 0 3 0 1 2 3 2 3 0"

# A case is a plan, a pile, and orders with their answers.
CASES = [
    # Room 3 is seen from room 0 along the line through the left posts (4, 3) and (5, 4).
    (SQUARE, "exact", """
        witness 0 3: line -1 1 1 doorways 0 2
        shut 1: 0
        witness 0 2: refused 7
        fill 0: 3
        fill 1: 4
        fill 2: 3
        fill 3: 4
        bitmap: 50340a3420340ad0f070f0"""),
    (SQUARE, "memory-exact", """
        fill 0: 4
        fill 1: 4
        fill 2: 4
        fill 3: 4
        bitmap: 50340a3420340af0f0f0f0"""),
    (SQUARE, "wedge", """
        fill 0: 4
        witness 0 3: not sharp
        witness 9 9: not sharp
        witness 0: not an order"""),
    (SQUARE, "exact", """
        shows 0 0: refused 2
        shows 4 0: refused 1
        shows 0 4: refused 1
        fill 4: refused 1
        shut 4: refused 3
        open 0: refused 4
        shut 0: 0
        shut 0: refused 4
        open 0: 0
        witness 0 0: refused 5
        witness 4 4: refused 1
        witness 0 999999999: refused 1
        fill 0: 4
        bitmap: refused 2"""),
    (SQUARE, "exact", """
        fill: not an order
        fill 0 0: not an order
        fill 0000000000: not an order
        fill 000000000: 4
        Fill 0: not an order
        fill -0: not an order
        bitmap 0: not an order
        shows\t0   3: yes"""),
    # Row 0 of the hall is rooms 0, 1, 6, 7, 8, and over Wedge room 9 too; row 5 is room 5 alone.
    (HALL, "exact", """
        fill 0: 5
        shows 0 8: yes
        shows 0 9: no
        witness 0 8: line -2 4 -4 doorways 0 1 2 3
        witness 0 9: refused 7
        fill 5: 1
        shut 4: 1
        shows 5 5: yes
        shows 0 0: refused 2"""),
    (HALL, "wedge", """
        fill 0: 6
        shows 0 9: yes"""),
    # From the lower triangle to the upper the walker sees the corner (0, 0) at the left: the line runs from there to (4, 4).
    (TWO_TRIANGLES, "exact", """
        witness 0 1: line -4 4 0 doorways 0
        witness 1 0: line 4 -4 0 doorways 0
        fill 0: 2
        fill 1: 2
        bitmap: 50340a3220320ac0c0
        shut 0: 2
        fill 1: 1
        fill 0: 1
        bitmap: 50340a3220320a8040
        open 0: 2"""),
]


def main():
    wrong, answers = 0, 0
    with tempfile.TemporaryDirectory() as folder:
        plan_file = os.path.join(folder, "plan")
        for text, pile, table in CASES:
            with open(plan_file, "wb") as out:
                out.write(text)
            must = [line.strip() for line in table.strip().split("\n")]
            given = "".join("  %s\n" % line.split(": ")[0] for line in must).encode()
            for program in sys.argv[1:]:
                done = subprocess.run([program, plan_file, pile], input=given, capture_output=True)
                said = done.stdout.decode().splitlines()[1:]
                answers += len(must)
                if said != must:
                    wrong += 1
                    print("%s, %s over %s: %s, not %s" % (program, pile, text.decode(), said, must))
    print("worked: %d answers, %d cases wrong" % (answers, wrong))
    sys.exit(1 if wrong else 0)


main()

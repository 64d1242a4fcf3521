#!/usr/bin/env python3
"""Compares the proved driver with the plain one on random plans and orders, byte for byte, and their exit status.

  bench/compare.py [--driver FILE] [--plain FILE] [--cases N] [--seed S] [--readers] [--keep FOLDER]

Each case is a plan, good or damaged, and a list of orders; a plan that is read runs over every pile. With --readers no orders are
given. A case that differs is written to the folder to keep it in. The status is 0 when nothing differs.
"""
import argparse
import collections
import os
import random
import subprocess
import sys
import tempfile

import damage
import random_orders
import random_plans

PILES = ["exact", "wedge", "memory-exact", "both-wedge-exact", "memory-both-wedge-exact", "both-wedge-memory-exact",
         "memory-memory-exact"]
SECONDS = 60


def options():
    here = os.path.dirname(os.path.abspath(__file__))
    parser = argparse.ArgumentParser()
    parser.add_argument("--driver", default=os.path.join(here, "../crates/drill/out/drill"))
    parser.add_argument("--plain", default=os.path.join(here, "plain/target/release/plain"))
    parser.add_argument("--cases", type=int, default=3000)
    parser.add_argument("--seed", type=int, default=1991)
    parser.add_argument("--readers", action="store_true")
    parser.add_argument("--keep", default=tempfile.gettempdir())
    return parser.parse_args()


def run(program, arguments, orders):
    """What a program says, its status, and what it says on standard error."""
    done = subprocess.run([program] + arguments, input=orders, capture_output=True, timeout=SECONDS)
    return done.stdout, done.returncode, done.stderr


def case(rng, wedge, readers):
    """A plan as a text, and orders for it. Wedge lets through very many walks, and so do polygons: such plans are small."""
    if rng.random() < 0.5:
        plan = random_plans.grid(rng, rng.choice([4, 9, 16] if wedge else [4, 12, 40, 256]))
    else:
        plan = random_plans.polygons(rng, rng.choice([2, 5, 12, 100, 256] if readers else [2, 4, 7] if wedge else [2, 5, 12]))
    orders = random_orders.orders(rng, plan.rooms(), plan.doorways(), 20 if plan.rooms() > 64 else 400)
    damaged = rng.random() < 0.5
    for _ in range(rng.choice([0, 1, 1, 2]) if damaged else 0):
        damage.plan_damage(rng, plan)
    text = random_plans.written(rng, plan)
    for _ in range(rng.choice([0, 1, 1, 3]) if damaged else 0):
        text = damage.text_damage(rng, text)
    return text, orders


class Tally:
    def __init__(self):
        self.runs, self.different = 0, 0
        self.plans, self.answers = collections.Counter(), collections.Counter()

    def note(self, said):
        """Counts plans read and refused, and kinds of answers."""
        lines = said.split(b"\n")
        self.plans["read" if lines[0].startswith(b"plan") else " ".join(lines[0].decode().split()[:2])] += 1
        for line in lines[1:-1]:
            answer = line.rsplit(b": ", 1)[-1].decode()
            first = answer.split()[0]
            kind = "number" if first.isdigit() else "bitmap" if first.startswith("5034") else answer if first != "line" else "line"
            self.answers[kind] += 1

    def summary(self):
        def told(counter):
            return ", ".join("%s %d" % pair for pair in sorted(counter.items()))
        said = told(self.plans), told(self.answers) or "none asked", self.runs, self.different
        return "plans: %s\nanswers: %s\n%d runs, %d different" % said


def compare(options, tally, plan_file, pile, orders):
    try:
        proved = run(options.driver, [plan_file, pile], orders)[:2]
        plain = run(options.plain, [plan_file, pile], orders)[:2]
    except subprocess.TimeoutExpired as late:
        proved, plain = late.cmd, None
    tally.runs += 1
    if proved != plain:
        tally.different += 1
        keep(options, tally, plan_file, pile, orders, proved, plain)
    else:
        tally.note(plain[0])
    return plain is not None and plain[1] == 0


def keep(options, tally, plan_file, pile, orders, proved, plain):
    name = os.path.join(options.keep, "differs-%d" % tally.different)
    with open(plan_file, "rb") as source, open(name + ".plan", "wb") as out:
        out.write(source.read())
    with open(name + ".orders", "wb") as out:
        out.write(orders)
    print("differs: %s.plan %s < %s.orders" % (name, pile, name))
    if plain is None:
        print("  too slow: %s" % proved)
        return
    for ours, theirs in zip(proved[0].split(b"\n") + [b""], plain[0].split(b"\n") + [b""]):
        if ours != theirs:
            print("  proved: %r\n  plain:  %r" % (ours[:200], theirs[:200]))
            break
    print("  status: proved %s, plain %s" % (proved[1], plain[1]))


def misuse(options, tally, plan_file):
    """Arguments that are none get a word on standard error, and nothing else."""
    folder = os.path.dirname(plan_file)
    for arguments in ([], [plan_file], [plan_file, "sharp"], [plan_file, ""], [plan_file, "memory-"], [plan_file, "memory-wedge"],
                      [plan_file, "exact", "exact"], [plan_file + ".none", "exact"], [folder, "exact"]):
        proved, plain = run(options.driver, arguments, b"fill 0\n"), run(options.plain, arguments, b"fill 0\n")
        tally.runs += 1
        if proved[:2] != (b"", 1) or plain[:2] != (b"", 1) or not (proved[2] and plain[2]):
            tally.different += 1
            print("differs: %s\n  proved: %s\n  plain:  %s" % (arguments, proved, plain))


def main():
    given = options()
    rng, tally = random.Random(given.seed), Tally()
    with tempfile.TemporaryDirectory() as folder:
        plan_file = os.path.join(folder, "plan")
        for _ in range(given.cases):
            wedge = rng.random() < 0.2
            text, orders = case(rng, wedge, given.readers)
            with open(plan_file, "wb") as out:
                out.write(text)
            piles = PILES if wedge else [pile for pile in PILES if pile != "wedge"]
            rng.shuffle(piles)
            for pile in piles:
                read = compare(given, tally, plan_file, pile, b"" if given.readers else orders)
                if not read or given.readers:
                    break
        with open(plan_file, "wb") as out:
            out.write(b"P1 3 3 111101111")
        misuse(given, tally, plan_file)
    print(tally.summary())
    sys.exit(1 if tally.different else 0)


main()

#!/usr/bin/env python3
"""Times the proved driver and the plain one side by side, on the same orders. `bench/speed.sh` builds them first.

  bench/speed.py [RUNS]

  rows     every row of an open grid is filled
  rhythm   then 60 doorways are shut and opened in turn, and each time the rows that were unfilled are filled again

Times are milliseconds of processor time, the best of RUNS runs (5) of each program in turn, less what the orders before take: for
rows none, for the rhythm those that fill the rows. The ratio is the proved time for a plain time of 1.
"""
import os
import subprocess
import sys
import tempfile

HERE = os.path.dirname(os.path.abspath(__file__))
PROVED = os.path.join(HERE, "../crates/drill/out/drill")
PLAIN = os.path.join(HERE, "plain/target/release/plain")
LINE = "%-14s %-13s %9s %9s %10s %10s %10s %10s %8s"


def once(program, plan, pile, orders, said):
    """Seconds of processor time of one run."""
    with open(orders, "rb") as given, open(said, "wb") as out:
        child = subprocess.Popen([program, plan, pile], stdin=given, stdout=out)
        _, status, used = os.wait4(child.pid, 0)
        child.returncode = os.waitstatus_to_exitcode(status)
    if child.returncode != 0:
        sys.exit("%s %s %s ended with status %d" % (program, plan, pile, child.returncode))
    return used.ru_utime + used.ru_stime


def same(one, other):
    with open(one, "rb") as a, open(other, "rb") as b:
        return a.read() == b.read()


def best(folder, plan, pile, orders, runs):
    """The best times of the plain and the proved program, whose answers must be the same."""
    said = [os.path.join(folder, "plain.said"), os.path.join(folder, "proved.said")]
    times = []
    for _ in range(runs):
        times.append([once(program, plan, pile, orders, out) for program, out in zip((PLAIN, PROVED), said)])
        if not same(*said):
            sys.exit("the answers differ: %s over %s" % (plan, pile))
    return [min(column) for column in zip(*times)]


def lines_in(path):
    with open(path, "rb") as file:
        return len(file.readlines())


def report(folder, work, plan, pile, orders, before, questions, runs):
    times = best(folder, plan, pile, orders, runs)
    empty = best(folder, plan, pile, before, runs)
    plain, proved = (time - start for time, start in zip(times, empty))
    count = lines_in(orders) - lines_in(before)
    print(LINE % (work, pile, count, questions, "%.2f" % (1000 * plain), "%.2f" % (1000 * proved), "%.0f" % (count / plain),
                  "%.0f" % (count / proved), "%.3f" % (proved / plain)), flush=True)


def plain_says(mode, plan):
    """What the plain program says of its own work, and the number of questions at the end of that."""
    done = subprocess.run([PLAIN, mode, plan, "exact"], capture_output=True, check=True)
    return done.stdout.decode(), (done.stdout + done.stderr).decode().split()[-2]


def written(folder, name, text):
    path = os.path.join(folder, name)
    with open(path, "w") as out:
        out.write(text)
    return path


def main():
    runs = int(sys.argv[1]) if len(sys.argv) > 1 else 5
    print(LINE % ("work", "pile", "orders", "questions", "plain ms", "proved ms", "plain/s", "proved/s", "ratio"))
    with tempfile.TemporaryDirectory() as folder:
        subprocess.run([sys.executable, os.path.join(HERE, "make_plans.py"), folder], check=True)
        nothing = written(folder, "nothing", "")
        for w, h in ((8, 8), (12, 12), (16, 16), (256, 1)):
            plan = os.path.join(folder, "grid-%dx%d.pbm" % (w, h))
            rows = written(folder, "rows", "".join("fill %d\n" % room for room in range(w * h)))
            _, questions = plain_says("--rows", plan)
            for pile in ("exact", "memory-exact"):
                report(folder, "rows %dx%d" % (w, h), plan, pile, rows, nothing, questions, runs)
            if (w, h) != (12, 12):
                orders, questions = plain_says("--rhythm-orders", plan)
                rhythm = written(folder, "rhythm", orders)
                report(folder, "rhythm %dx%d" % (w, h), plan, "memory-exact", rhythm, rows, questions, 1)


main()

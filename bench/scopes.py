#!/usr/bin/env python3
"""Times scopes by `dcc_bench scopes COUNT`, which declares so many names in one scope, finds each and closes the scope, and
prints ratios of one run.

    bench/scopes.py [BINARY]        (default: crates/dcc_bench/out/dcc_bench, as `rt run` or `rt ci` leaves it)
    bench/scopes.py --instructions  counts instructions by valgrind instead: what twice as many names cost then comes out the
                                    same in each run, whatever else the machine does

A line says what so many names cost, and what twice as many cost.
"""
import os, re, subprocess, sys

RUNS = 9
COUNTS = [30_000, 120_000, 480_000]
HERE = os.path.dirname(os.path.dirname(os.path.abspath(__file__)))


def once(words):
    """Seconds of processor time, the greatest memory in KiB and the output of one run."""
    child = subprocess.Popen(words, stdout=subprocess.PIPE)
    out = child.stdout.read()
    _, _, usage = os.wait4(child.pid, 0)
    return usage.ru_utime + usage.ru_stime, usage.ru_maxrss, out.decode().strip()


def instructions(words):
    tool = ["valgrind", "--tool=callgrind", "--callgrind-out-file=/dev/null"]
    said = subprocess.run(tool + words, capture_output=True, text=True).stderr
    return int(re.search(r"Collected : (\d+)", said).group(1))


def main():
    counts = "--instructions" in sys.argv[1:]
    rest = [word for word in sys.argv[1:] if word != "--instructions"]
    binary = rest[0] if rest else os.path.join(HERE, "crates", "dcc_bench", "out", "dcc_bench")
    for count in COUNTS:
        few, many = ([binary, "scopes", str(number)] for number in (count, 2 * count))
        if counts:
            one, two = instructions(few), instructions(many)
            print("%d names: %d instructions, twice as many %.2f times" % (count, one, two / one), flush=True)
            continue
        # by turns, so that what else the machine does meets both
        runs = [(once(few), once(many)) for _ in range(RUNS)]
        assert all(run[0][2] == "names %d" % count and run[1][2] == "names %d" % (2 * count) for run in runs)
        one, two = min(run[0][0] for run in runs), min(run[1][0] for run in runs)
        memory = max(run[0][1] for run in runs)
        print("%d names: %.3f s, %.0f MiB, twice as many %.2f times" % (count, one, memory / 1024, two / one), flush=True)


main()

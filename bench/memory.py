#!/usr/bin/env python3
"""Times the memory by `dcc_bench memory COUNT`, and prints ratios of one run to the same in plain Rust (`bench/memory.rs`).

    bench/memory.py [BINARY]       (default: crates/dcc_bench/out/dcc_bench, as `rt run` or `rt ci` leaves it)

65,535 objects of 8 to 15 bytes are created; then a number of each kind in turn is stored COUNT times, and loaded COUNT times,
spread over all objects. A line says how long both take, that both say the same, and their ratio.
"""
import os, subprocess, sys, tempfile

RUNS = 15
HERE = os.path.dirname(os.path.dirname(os.path.abspath(__file__)))


def once(words):
    """Seconds of processor time and the output of one run."""
    child = subprocess.Popen(words, stdout=subprocess.PIPE, stderr=subprocess.PIPE)
    out = child.stdout.read()
    child.stderr.read()
    _, _, usage = os.wait4(child.pid, 0)
    return usage.ru_utime + usage.ru_stime, out.decode(errors="replace").strip()


def main():
    binary = sys.argv[1] if sys.argv[1:] else os.path.join(HERE, "crates", "dcc_bench", "out", "dcc_bench")
    with tempfile.TemporaryDirectory() as folder:
        plain = os.path.join(folder, "memory")
        subprocess.run(["rustc", "-O", "-o", plain, os.path.join(HERE, "bench", "memory.rs")], check=True)
        for count in ("0", "1000000", "10000000"):
            # by turns, so that what else the machine does meets both
            runs = [(once([binary, "memory", count]), once([plain, count])) for _ in range(RUNS)]
            ours, theirs = min(run[0][0] for run in runs), min(run[1][0] for run in runs)
            said = {run[0][1] for run in runs} | {run[1][1] for run in runs}
            print("%s stores and loads: %.4f s, %.2f times plain Rust, %s"
                  % (count, ours, ours / theirs, said.pop() if len(said) == 1 else "DIFFERENT: %s" % said))


main()

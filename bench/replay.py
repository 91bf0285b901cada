#!/usr/bin/env python3
"""Times `dcc replay`, and prints ratios of one run.

    bench/replay.py [BINARY]        (default: crates/dcc/out/dcc, as `rt run` or `rt ci` leaves it)

Two shapes of texts: one function with many instructions, and many variables with a write to each. A line says how long
a replay takes, how many steps a second that is, how often the time of a replay of no step on the same text (which reads
and scans the text alone), how much memory it had at most, and what twice the text costs. Then a file of choices of
60 MiB, whose reading is compared with Python's json.
"""
import json, os, subprocess, sys, tempfile

RUNS = 5
HERE = os.path.dirname(os.path.dirname(os.path.abspath(__file__)))


def text(variables, statements):
    """A program with that many variables and a function of statements that each write one of them."""
    lines = ["dcc 1", "function f void"]
    lines += ["static v%d 4" % k for k in range(variables)]
    lines.append("body f 0 %d" % statements)
    for k in range(statements):
        place = "(obj %d)" % (2 + k % variables)
        lines.append("set %d (add s32 (load s32 %s) (s32 1))" % (k, place))
        lines.append("covers f.assigns.%d %s (u64 4)" % (k + 1, place))
        lines.append("store s32 %s (reg %d)" % (place, k))
    lines += ["return", "end", "body .start 0 0", "statics", "objects %d" % 4, "push"]
    lines += ["range %d (s32 1) (obj %d) (u64 4)" % (k + 1, k + 2) for k in range(min(variables, 100))]
    lines += ["call - f", "pop", "return", "end"]
    return "\n".join(lines) + "\n", 4 * variables + 1, 3 * statements


def once(words):
    """Seconds of processor time and the greatest memory in KiB of one run."""
    child = subprocess.Popen(words, stdout=subprocess.PIPE, stderr=subprocess.PIPE)
    out, said = child.stdout.read(), child.stderr.read()
    _, status, usage = os.wait4(child.pid, 0)
    if os.waitstatus_to_exitcode(status) not in (0, 10):
        sys.exit("%s failed: %s" % (words[0], said.decode(errors="replace")))
    return usage.ru_utime + usage.ru_stime, usage.ru_maxrss, out


def least(words):
    results = [once(words) for _ in range(RUNS)]
    return min(r[0] for r in results), max(r[1] for r in results), results[0][2]


def shape(binary, folder, name, variables, statements):
    times = []
    for half in (2, 1):
        content, drawn, steps = text(max(1, variables // half), statements // half)
        path, choices = os.path.join(folder, name), os.path.join(folder, "choices.json")
        with open(path, "w") as file:
            file.write(content)
        with open(choices, "w") as file:
            json.dump([0] * drawn, file)
        whole, memory, out = least([binary, "replay", path, choices, "100000000"])
        none, _, _ = least([binary, "replay", path, choices, "0"])
        times.append(whole)
    if not out.startswith(b"end returned"):
        sys.exit("%s: %s" % (name, out[:200]))
    print("%s: %d bytes, %d steps, %.3f s, %.2f million steps a second behind the scan, %.2f times reading and scanning alone, %.0f MiB, twice the text %.2f times"
          % (name, len(content), steps, whole, steps / max(whole - none, 1e-6) / 1e6, whole / none, memory / 1024, times[1] / times[0]))


def choices(binary, folder):
    path, empty = os.path.join(folder, "long.json"), os.path.join(folder, "empty.goto")
    with open(empty, "w") as file:
        file.write("dcc 1\nbody .start 0 0\nreturn\nend\n")
    count = 60 * 1024 * 1024 // 20
    with open(path, "w") as file:
        file.write("[" + ",".join("%d" % (10 ** 18 + k) for k in range(count)) + "]")
    seconds, memory, _ = least([binary, "replay", empty, path, "10"])
    python = min(timed([sys.executable, "-c", "import json, sys; json.load(open(sys.argv[1]))", path]) for _ in range(3))
    print("choices: %d bytes, %.3f s, %.2f times Python's json, %.0f MiB" % (os.path.getsize(path), seconds, seconds / python, memory / 1024))


def timed(words):
    return once(words)[0]


def main():
    binary = sys.argv[1] if len(sys.argv) > 1 else os.path.join(HERE, "crates", "dcc", "out", "dcc")
    with tempfile.TemporaryDirectory() as folder:
        shape(binary, folder, "instructions", 100, 33_334)
        shape(binary, folder, "variables", 32_766, 32_766)
        choices(binary, folder)


main()

#!/usr/bin/env python3
"""Times `dcc instrument` beside `gcc -fsyntax-only` on the same sources, and prints ratios of one run.

    bench/instrument.py [BINARY]        (default: crates/dcc/out/dcc, as `rt run` or `rt ci` leaves it)

Each source is given to gcc with the clauses taken out (macros that expand to nothing). A line says how long dcc took
as a multiple of gcc's time, how much memory it had at most, and what twice the source costs.
"""
import os, subprocess, sys, tempfile

LIMIT = 1_048_576
RUNS = 7
NOTHING = ["-D__CPROVER_requires(x)=", "-D__CPROVER_ensures(x)=", "-D__CPROVER_assigns(...)="]
HERE = os.path.dirname(os.path.dirname(os.path.abspath(__file__)))


def variables(size):
    """As many variables as a source may have, for its size, and a function that writes the last one."""
    count = 32_766 * size // LIMIT
    tail = "void f(int x)\n__CPROVER_requires(x < 9)\n__CPROVER_assigns({0})\n__CPROVER_ensures({0} == x)\n{{ {0} = x; }}\n"
    width = (size - len(tail) - 90) // count - len("int v;\n")
    names = ["v%0*d" % (width, k) for k in range(count)]
    return "".join("int %s;\n" % name for name in names) + tail.format(names[-1])


def statements(size):
    """A hundred variables, and assignments up to the size."""
    head = "".join("int g%d;\n" % k for k in range(100)) + "void f(int x)\n"
    head += "__CPROVER_assigns(%s)\n{\n" % ", ".join("g%d" % k for k in range(100))
    lines, length, k = [], len(head) + 2, 0
    while True:
        line = "g%d = g%d + %d;\n" % (k % 100, (k * 7 + 3) % 100, k)
        if length + len(line) > size:
            return head + "".join(lines) + "}\n"
        lines.append(line)
        length += len(line)
        k += 1


def once(words):
    """Seconds of processor time and the greatest memory in KiB of one run."""
    child = subprocess.Popen(words, stdout=subprocess.DEVNULL, stderr=subprocess.PIPE)
    said = child.stderr.read()
    _, status, usage = os.wait4(child.pid, 0)
    if os.waitstatus_to_exitcode(status) != 0:
        sys.exit("%s failed: %s" % (words[0], said.decode(errors="replace")))
    return usage.ru_utime + usage.ru_stime, usage.ru_maxrss


def measured(binary, path):
    """The least time of dcc and of gcc in so many runs by turns, and the most memory of dcc."""
    dcc, gcc, memory = [], [], 0
    for _ in range(RUNS):
        seconds, kib = once([binary, "instrument", path, "--enforce", "f"])
        dcc.append(seconds)
        memory = max(memory, kib)
        gcc.append(once(["gcc", "-fsyntax-only", "-w", *NOTHING, path])[0])
    return min(dcc), min(gcc), memory


def main():
    binary = sys.argv[1] if len(sys.argv) > 1 else os.path.join(HERE, "crates", "dcc", "out", "dcc")
    with tempfile.TemporaryDirectory() as folder:
        for shape in (variables, statements):
            path = os.path.join(folder, shape.__name__ + ".c")
            results = []
            for size in (LIMIT // 2, LIMIT):
                text = shape(size)
                with open(path, "w") as file:
                    file.write(text)
                results.append((len(text), *measured(binary, path)))
            (_, half, _, _), (length, whole, gcc, memory) = results
            print("%s: %d bytes, %.3f s, %.2f times gcc -fsyntax-only, %.0f MiB, twice the source %.2f times"
                  % (shape.__name__, length, whole, whole / gcc, memory / 1024, whole / half))


main()

#!/usr/bin/env python3
"""Times `dcc replay` beside the same in plain Rust (`bench/replayer.rs`), and prints ratios of one run.

    bench/machine.py [BINARY] [PART..]      (default: crates/dcc/out/dcc, as `rt run` or `rt ci` leaves it, and all parts)

The parts:
- steps: a loop of ten instructions in a write set of four ranges, for 5 and for 50 million steps, and what ten times the
  steps cost. Aims: 1.5 times plain Rust's time, 2 times its memory, and 10.5 times.
- scan: a text of 50 MB of functions as `instrument` writes them, and no step. Aims: 1.5 times its time, 2 times its memory.
- limit: such a text of as many bytes as a text may have, and one of a byte more; before them a sixteenth of so many bytes
  in lines of four, the shortest that an instruction has, and 16 times that memory. Aim: less than 8 GiB.
- names: as many functions and variables as there may be, and one more.

Both programs are run by turns. A time is the least processor time of some runs, and a memory the most that one of them had.
Where both don't answer the same, or not what is wanted, or need too much memory, the line says so, and the status is 1.
"""
import os, resource, subprocess, sys, tempfile, time

RUNS = 5
HERE = os.path.dirname(os.path.dirname(os.path.abspath(__file__)))
TEXT_LIMIT = 134_217_728
NAMES_LIMIT = 32_767
FAULTS = []


def peak(pid):
    """The most memory in KiB that a program has had so far, or 0 where it has ended."""
    try:
        with open("/proc/%d/status" % pid) as file:
            return max(int(line.split()[1]) for line in file if line.startswith("VmHWM:"))
    except (OSError, ValueError):
        return 0


def once(words):
    """Seconds of processor time, the greatest memory in KiB, the status, the output and the complaint of one run."""
    with tempfile.TemporaryFile() as out, tempfile.TemporaryFile() as err:
        child = subprocess.Popen(words, stdout=out, stderr=err)
        pid, memory = 0, 0
        while pid == 0:
            memory = max(memory, peak(child.pid))
            time.sleep(0.002)
            pid, status, usage = os.wait4(child.pid, os.WNOHANG)
        # what this script has had counts as the child's too, so that a smaller memory is what was seen while the child ran
        if usage.ru_maxrss > resource.getrusage(resource.RUSAGE_SELF).ru_maxrss:
            memory = usage.ru_maxrss
        out.seek(0)
        err.seek(0)
        return usage.ru_utime + usage.ru_stime, memory, os.waitstatus_to_exitcode(status), out.read(), err.read()


class Side:
    """The least time and the most memory of some runs of one program, and what they answered."""

    def __init__(self, runs):
        self.seconds = min(run[0] for run in runs)
        self.memory = max(run[1] for run in runs)
        self.answers = {run[2:] for run in runs}

    def answer(self):
        """What the runs answered, in a few words."""
        return " or ".join("status %d %s" % (status, (err or out).decode(errors="replace").split("\n")[0])
                           for status, out, err in self.answers)


def compared(binary, plain, tail, count=RUNS):
    """The runs of both programs on these words, by turns so that what else the machine does meets both."""
    runs = [(once([binary, "replay", *tail]), once([plain, *tail])) for _ in range(count)]
    return Side([run[0] for run in runs]), Side([run[1] for run in runs])


def said(line, *faults):
    """Prints a line, and behind it the faults that there are."""
    found = [fault for fault in faults if fault]
    FAULTS.extend(found)
    print(", ".join([line, *found]), flush=True)


def ratios(ours, theirs):
    return "%.3f s, %.2f times plain Rust, %.1f MiB, %.2f times" % (
        ours.seconds, ours.seconds / theirs.seconds, ours.memory / 1024, ours.memory / max(theirs.memory, 1))


def difference(ours, theirs):
    if ours.answers != theirs.answers or len(ours.answers) != 1:
        return "DIFFERENT: %s, and plain %s" % (ours.answer(), theirs.answer())


def written(folder, name, pieces):
    """The path of a file with these pieces, which aren't kept in memory together."""
    path = os.path.join(folder, name)
    with open(path, "w") as file:
        file.writelines(pieces)
    return path


def empty(folder):
    return written(folder, "choices.json", ["[]"])


def loop():
    """The text of a loop that counts up, adds to a variable and changes an array, each write tested."""
    lines = ["dcc 1", "static a 4", "static b 8", "static c 400", "static d 4", "body .start 0 3", "push"]
    lines += ["range %d (s32 1) (obj %d) (u64 %d)" % (k + 1, k + 1, size) for k, size in enumerate((4, 8, 400, 4))]
    lines += ["set 0 (s32 0)"]
    first = len(lines) - lines.index("push")
    lines += [
        "ifnot (lt s32 (reg 0) (s32 2147483647)) %d" % (first + 10),
        "set 1 (add u32 (load u32 (obj 1)) (u32 3))",
        "covers f.assigns.1 (obj 1) (u64 4)",
        "store u32 (obj 1) (reg 1)",
        "set 2 (at 4 (obj 3) (conv s64 s32 (rem s32 (reg 0) (s32 100))))",
        "covers f.assigns.2 (reg 2) (u64 4)",
        "store u32 (reg 2) (xor u32 (load u32 (reg 2)) (reg 1))",
        "assert f.assertion.1 (and2 (ge s32 (reg 0) (s32 0)) (le u32 (u32 0) (reg 1)))",
        "set 0 (add s32 (reg 0) (s32 1))",
        "goto %d" % first,
        "pop", "return", "end",
    ]
    return "\n".join(lines) + "\n"


def steps(binary, plain, folder):
    path, choices = written(folder, "loop.goto", [loop()]), empty(folder)
    times = []
    for count in (5_000_000, 50_000_000):
        ours, theirs = compared(binary, plain, [path, choices, str(count)])
        times.append((ours.seconds, theirs.seconds))
        line = "steps: %d million, %.1f ns a step (plain %.1f), %s" % (
            count // 1_000_000, ours.seconds / count * 1e9, theirs.seconds / count * 1e9, ratios(ours, theirs))
        said(line, difference(ours, theirs), None if ours.answer() == "status 0 end cut" else "NOT CUT: %s" % ours.answer())
    print("steps: ten times the steps %.2f times the time (plain %.2f)" % tuple(more / less for less, more in zip(*times)))


def code(functions, statements):
    """The lines of a body, with `@` for its name: two parameters, and statements that each write a variable."""
    lines = ["body @ 2 %d" % (4 + statements)]
    lines += ["local %d 4 zero" % k for k in (2, 3)] + ["init s32 (reg %d) (reg %d)" % (k + 2, k) for k in (0, 1)]
    for k in range(statements):
        place = "(obj %d)" % (functions + 1 + k % 100)
        value = [
            "(add s32 (load s32 (reg 2)) (s32 %d))" % (k * 7919),
            "(load s32 %s)" % place,
            "(lt s32 (load s32 %s) (sub s32 (load s32 (reg 3)) (s32 %d)))" % (place, -k),
            "(mul s32 (add s32 (load s32 (reg 2)) (load s32 %s)) (s32 3))" % place,
        ][k % 4]
        lines += ["set %d %s" % (4 + k, value), "covers @.assigns.%d %s (u64 4)" % (k + 1, place)]
        lines += ["store s32 %s (reg %d)" % (place, 4 + k)]
    return "\n".join(lines + ["return (reg %d)" % (3 + statements), "end", ""])


def start(functions):
    """The lines of a start that draws, calls each function, and tests what it gives."""
    lines = ["body .start 0 3", "statics", "objects 4", "draw 0 s32", "draw 1 s32", "seen"]
    lines += ["require (lt s32 (reg 0) (s32 100))", "push"]
    lines += ["range %d (s32 1) (obj %d) (u64 4)" % (k + 1, functions + 1 + k) for k in range(100)]
    for k in range(functions):
        lines += ["call 2 f%05d (reg 0) (reg 1)" % k, "check f%05d.postcondition.1 (le s32 (reg 0) (reg 2))" % k]
    return "\n".join(lines + ["pop", "return", "end", ""])


def functions(size):
    """The pieces of a text of exactly that many bytes: functions with bodies of 300 instructions, and a start that calls
    each of them. The name of a last check is as long as the size asks for."""
    def head(count):
        lines = ["dcc 1"] + ["function f%05d s32 s32 s32" % k for k in range(count)] + ["static v%02d 4" % k for k in range(100)]
        return "\n".join(lines) + "\n"

    def rest(count):
        return len(head(count)) + len(start(count)) + count * len(code(count, 100).replace("@", "f00000"))

    count = size // (100 + len(code(10_000, 100).replace("@", "f00000")))
    while rest(count) + 100 > size:
        count -= 1
    block, name = code(count, 100), "x" * (size - rest(count) - len("check  (s32 1)\n"))
    yield head(count)
    yield from (block.replace("@", "f%05d" % k) for k in range(count))
    yield start(count).replace("pop\n", "check %s (s32 1)\npop\n" % name)


def scan(binary, plain, folder):
    path, choices = written(folder, "scan.goto", functions(50_000_000)), empty(folder)
    ours, theirs = compared(binary, plain, [path, choices, "0"])
    said("scan: %d bytes, %s" % (os.path.getsize(path), ratios(ours, theirs)), difference(ours, theirs))


def shortest(size):
    """The pieces of a text of about that many bytes in lines of four."""
    yield "dcc 1\nbody .start 0 0\n"
    yield from ("pop\n" * 1000 for _ in range(size // 4000))
    yield "return\nend\n"


def too_much(kib):
    return "TOO MUCH MEMORY" if kib >= 8 * 1024 * 1024 else None


def limit(binary, plain, folder):
    choices = empty(folder)
    path = written(folder, "shortest.goto", shortest(TEXT_LIMIT // 16))
    ours, theirs = compared(binary, plain, [path, choices, "0"], 3)
    said("limit: %d bytes in lines of four, %s, and 16 times that memory %.2f GiB"
         % (os.path.getsize(path), ratios(ours, theirs), ours.memory * 16 / 1024 / 1024),
         difference(ours, theirs), too_much(ours.memory * 16))
    for size in (TEXT_LIMIT, TEXT_LIMIT + 1):
        path = written(folder, "limit.goto", functions(size))
        ours, theirs = compared(binary, plain, [path, choices, "0"], 3)
        line = "limit: %d bytes, %s, %s" % (os.path.getsize(path), ratios(ours, theirs), ours.answer())
        refused = ours.answers == {(9, b"", b"dcc: too long\n")}
        said(line, difference(ours, theirs), too_much(ours.memory),
             None if refused == (size > TEXT_LIMIT) else "REFUSED" if refused else "NOT TOO LONG")
        os.remove(path)


def names(binary, plain, folder):
    choices = empty(folder)
    for count in (NAMES_LIMIT, NAMES_LIMIT + 1):
        lines = ["dcc 1\n"] + ["function f%d void\n" % k for k in range(16_384)]
        lines += ["static v%d 4\n" % k for k in range(count - 16_384)]
        path = written(folder, "names.goto", lines + ["body .start 0 0\n", "return\n", "end\n"])
        ours, theirs = compared(binary, plain, [path, choices, "10"])
        wanted = "status 0 end returned" if count <= NAMES_LIMIT else "status 4 dcc: text shape %d" % (count + 1)
        said("names: %d, %s, %s" % (count, ratios(ours, theirs), ours.answer()), difference(ours, theirs),
             None if ours.answer() == wanted else "NOT %s" % wanted)


def main():
    parts = {part.__name__: part for part in (steps, scan, limit, names)}
    words = sys.argv[1:]
    binary = words.pop(0) if words and words[0] not in parts else os.path.join(HERE, "crates", "dcc", "out", "dcc")
    if any(word not in parts for word in words):
        sys.exit("the parts are %s" % ", ".join(parts))
    with tempfile.TemporaryDirectory() as folder:
        plain = os.path.join(folder, "replayer")
        subprocess.run(["rustc", "--edition", "2024", "-O", "-o", plain, os.path.join(HERE, "bench", "replayer.rs")], check=True)
        for name in words or parts:
            parts[name](binary, plain, folder)
    sys.exit(1 if FAULTS else 0)


main()

#!/usr/bin/env python3
"""Times the lexer by `dcc_bench lex FILE` and the readers by `dcc_bench read_expr FILE` and `dcc_bench read_unit FILE`, and prints ratios of one run.

    bench/lexer.py [BINARY]        (default: crates/dcc_bench/out/dcc_bench, as `rt run` or `rt ci` leaves it)
    bench/lexer.py --instructions  counts instructions by valgrind instead, of an eighth of each shape: what twice as much
                                   costs then comes out the same in each run, whatever else the machine does

Each shape is 1 MiB of one kind of token; a line says how long a call takes, and what twice as much costs. `read_expr` reads
the first expression, after the lexer: at most 128 high, so much of a shape is only lexed; `read_unit` reads all tokens or none.
Then real C text:
what gcc makes of some headers, without lines that have a string; a line says how many tokens a second that is, and the
time beside `gcc -fsyntax-only` on the same text.
"""
import os, re, subprocess, sys, tempfile

MIB = 1_048_576
RUNS = 9
HERE = os.path.dirname(os.path.dirname(os.path.abspath(__file__)))
HEADERS = ["assert", "limits", "stdbool", "stddef", "stdint", "stdlib", "string", "stdio", "math", "unistd", "time"]
SHAPES = {
    "parentheses": "(", "braces": "{", "stars": "*", "minuses": "-", "conditions": "if(1)", "questions": "a?",
    "digits": "7", "open comments": "/*", "slashes": "/", "comments": "/**/", "line comments": "//\n", "newlines": "\n",
    "line markers": "# 1\n", "includes": "#include <stdint.h>\n", "characters": "'a'", "words": "word ",
}
EXPRESSIONS = {
    "parentheses": "(", "braces": "{", "stars": "*", "minuses": "-", "conditions": "if(1)", "questions": "a?", "digits": "7 ",
    "sums": "a+", "calls": "f(", "arguments": "a,", "indices": "a[", "sizeofs": "sizeof(", "implications": "a==>", "members": "a.",
}
UNITS = {
    "parentheses": "(", "braces": "{", "stars": "*", "minuses": "-", "conditions": "if(1)", "questions": "a?", "digits": "7 ",
    "declarations": "int x;", "declarators": "x,", "initializers": "1,", "functions": "void f(void){a=1;}", "statements": "a=1;", "clauses": "__CPROVER_requires(1)",
}
# a front before a shape, so that all of it is a list
LISTS = {"arguments": "f(", "declarators": "int ", "initializers": "int x[]={", "statements": "void f(void){", "clauses": "void f(void)"}


def once(words):
    """Seconds of processor time, the greatest memory in KiB and the output of one run."""
    child = subprocess.Popen(words, stdout=subprocess.PIPE, stderr=subprocess.PIPE)
    out = child.stdout.read()
    child.stderr.read()
    _, _, usage = os.wait4(child.pid, 0)
    return usage.ru_utime + usage.ru_stime, usage.ru_maxrss, out.decode(errors="replace").strip()


def least(words):
    results = [once(words) for _ in range(RUNS)]
    return min(r[0] for r in results), max(r[1] for r in results), results[0][2]


def write(path, text):
    with open(path, "w") as file:
        file.write(text)


def shapes(binary, call, path, pieces, fronts):
    twice = path + ".twice"
    for name, piece in pieces.items():
        front = fronts.get(name, "")
        write(path, front + piece * (MIB // len(piece)))
        write(twice, front + piece * (2 * MIB // len(piece)))
        # by turns, so that what else the machine does meets both
        runs = [(once([binary, call, path]), once([binary, call, twice])) for _ in range(RUNS)]
        one, two = min(run[0][0] for run in runs), min(run[1][0] for run in runs)
        memory, said = max(run[0][1] for run in runs), runs[0][0][2]
        print("%s, %s: %.3f s, %s, %.0f MiB, twice as much %.2f times" % (call, name, one, said, memory / 1024, two / one))


def instructions(binary, call, path, text):
    write(path, text)
    words = ["valgrind", "--tool=callgrind", "--callgrind-out-file=/dev/null", binary, call, path]
    said = subprocess.run(words, capture_output=True, text=True).stderr
    return int(re.search(r"Collected : (\d+)", said).group(1))


def counted(binary, call, path, pieces, fronts):
    for name, piece in pieces.items():
        front = fronts.get(name, "")
        one, two = (instructions(binary, call, path, front + piece * (size // len(piece))) for size in (MIB // 8, MIB // 4))
        print("%s, %s: %d instructions, twice as much %.2f times" % (call, name, one, two / one), flush=True)


def real_text(folder):
    source = os.path.join(folder, "headers.c")
    with open(source, "w") as file:
        file.write("".join("#include <%s.h>\n" % header for header in HEADERS))
    text = subprocess.run(["gcc", "-E", "-P", source], capture_output=True, text=True, check=True).stdout
    return "".join(line + "\n" for line in text.split("\n") if '"' not in line)


def main():
    counts = "--instructions" in sys.argv[1:]
    words = [word for word in sys.argv[1:] if word != "--instructions"]
    binary = words[0] if words else os.path.join(HERE, "crates", "dcc_bench", "out", "dcc_bench")
    with tempfile.TemporaryDirectory() as folder:
        path = os.path.join(folder, "a.c")
        if counts:
            counted(binary, "lex", path, SHAPES, {})
            counted(binary, "read_expr", path, EXPRESSIONS, LISTS)
            counted(binary, "read_unit", path, UNITS, LISTS)
            return
        shapes(binary, "lex", path, SHAPES, {})
        shapes(binary, "read_expr", path, EXPRESSIONS, LISTS)
        shapes(binary, "read_unit", path, UNITS, LISTS)
        text = real_text(folder)
        write(path, text)
        seconds, memory, said = least([binary, "lex", path])
        gcc, _, _ = least(["gcc", "-fsyntax-only", "-w", path])
        tokens = int(said.split()[1])
        print("real text: %d bytes, %s, %.3f s, %.1f million tokens a second, %.2f times gcc -fsyntax-only, %.0f MiB"
              % (len(text), said, seconds, tokens / seconds / 1e6, seconds / gcc, memory / 1024))


main()

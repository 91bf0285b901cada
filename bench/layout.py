#!/usr/bin/env python3
"""How gcc lays out structs, as the rows of the test of layouts.

    bench/layout.py            prints the rows
    bench/layout.py FILE ..    tells whether the files have each of them, in this order

The members are written here; a struct's number is that of its row. A row has the members, and what gcc makes of them: the
size, the alignment and the offset of each member. A member array without elements is an extension of gcc's.
"""
import os
import re
import subprocess
import sys
import tempfile

KINDS = {"Bool": "_Bool", "S8": "signed char", "U8": "unsigned char", "S16": "short", "U16": "unsigned short", "S32": "int",
         "U32": "unsigned", "S64": "long", "U64": "unsigned long", "Ptr": "char *"}

ROWS = [
    ["Num(S8)", "Num(S32)", "Num(S16)"],
    ["Num(S8)", "Array(S8, 3)", "Pointer"],
    ["Num(Bool)"],
    ["Num(S64)", "Num(S8)"],
    ["Num(S8)", "Num(S64)"],
    ["Struct(0)", "Num(S8)"],
    ["Num(S8)", "Struct(4)", "Num(S8)"],
    ["Structs(0, 3)", "Num(S16)"],
    ["Const(S32)", "Const(S8)", "Const(U16)"],
    ["Array(S16, 5)", "Num(S8)", "Structs(2, 3)", "Num(S32)"],
    ["Num(U8)", "Num(U16)", "Num(U8)", "Num(U32)", "Num(U8)", "Num(U64)"],
    ["Num(Bool)", "Num(Ptr)", "Num(Bool)", "Num(Bool)"],
    ["Num(S8)", "Grid(S32, 2, 3)", "Num(S8)"],
    ["Structs(6, 2)", "Struct(1)", "Num(Bool)"],
    ["Num(S8)", "Array(S32, 1)", "Num(S8)"],
    ["Array(S8, 16777210)", "Num(S32)"],
]


def declared(member, name):
    """The member as C declares it."""
    form, parts = re.fullmatch(r"(\w+)(?:\((.*)\))?", member).groups()
    parts = parts.split(", ") if parts else []
    if form == "Num":
        return f"{KINDS[parts[0]]} {name};"
    if form == "Const":
        return f"const {KINDS[parts[0]]} {name};"
    if form == "Pointer":
        return f"void *{name};"
    if form == "Array":
        return f"{KINDS[parts[0]]} {name}[{parts[1]}];"
    if form == "Grid":
        return f"{KINDS[parts[0]]} {name}[{parts[1]}][{parts[2]}];"
    if form == "Struct":
        return f"struct s{parts[0]} {name};"
    return f"struct s{parts[0]} {name}[{parts[1]}];"


def program():
    lines = ["#include <stddef.h>", "#include <stdio.h>"]
    for s, members in enumerate(ROWS):
        body = " ".join(declared(member, f"m{at}") for at, member in enumerate(members))
        lines.append(f"struct s{s} {{ {body} }};")
    lines.append("int main(void) {")
    for s, members in enumerate(ROWS):
        values = [f"sizeof(struct s{s})", f"_Alignof(struct s{s})"] + [f"offsetof(struct s{s}, m{at})" for at in range(len(members))]
        form = ", ".join("%zu" for _ in values)
        lines.append(f'printf("(&[{", ".join(members)}], &[{form}]),\\n", {", ".join(values)});')
    lines.append("return 0; }")
    return "\n".join(lines)


def rows():
    with tempfile.TemporaryDirectory() as folder:
        source, made = os.path.join(folder, "layout.c"), os.path.join(folder, "layout")
        with open(source, "w") as file:
            file.write(program())
        subprocess.run(["gcc", "-w", "-O0", "-o", made, source], check=True)
        return subprocess.run([made], check=True, capture_output=True, text=True).stdout.splitlines()


def plain(text):
    """The text without its layout."""
    return re.sub(r",([\])])", r"\1", re.sub(r"\s+", "", text))


def main():
    found = rows()
    if len(sys.argv) == 1:
        print("\n".join(found))
        return 0
    have = plain("".join(open(name).read() for name in sys.argv[1:]))
    at = 0
    for row in found:
        at = have.find(plain(row.rstrip(",")), at)
        if at < 0:
            print(f"not there: {row}")
            return 1
    print(f"all {len(found)} rows are there")
    return 0


sys.exit(main())

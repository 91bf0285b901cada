#!/usr/bin/env python3
"""What gcc makes of edge values, as the rows of the tests of numbers.

    bench/numbers.py            prints the rows
    bench/numbers.py FILE ..    tells whether the files have each of them, in this order

The operands are written here. Where C leaves a result undefined, by the words of C11 6.5, a row says `none`: a signed
result that doesn't fit, a divisor of 0, a shift's count that is negative or not below the width, a negative number
shifted to the left. A narrow kind isn't promoted: its result is taken to its own width.
"""
import os
import re
import subprocess
import sys
import tempfile

KINDS = [("Bool", "_Bool", 1, False), ("S8", "signed char", 8, True), ("U8", "unsigned char", 8, False),
         ("S16", "short", 16, True), ("U16", "unsigned short", 16, False), ("S32", "int", 32, True),
         ("U32", "unsigned", 32, False), ("S64", "long", 64, True), ("U64", "unsigned long", 64, False)]


def pairs(bits, signed):
    """Pairs of operands of a kind; the second is also a shift's count."""
    if bits == 1:
        return [(0, 0), (0, 1), (1, 0), (1, 1)]
    if signed:
        low, high = -2 ** (bits - 1), 2 ** (bits - 1) - 1
        return [(0, 0), (high, 1), (low, 1), (low, -1), (-1, low), (high, high), (low, low), (high, -1), (-7, 2), (7, -2),
                (-8, 1), (3, bits - 2), (1, bits - 2), (1, bits - 1), (1, bits), (0, bits - 1), (-1, bits - 1)]
    high = 2 ** bits - 1
    return [(0, 0), (0, 1), (high, 1), (1, high), (high, high), (7, 2), (high - 1, 3), (3, bits - 1), (1, bits - 1),
            (1, bits), (2 ** (bits - 1), 1), (2 ** (bits - 1), 2)]


def singles(bits, signed):
    if bits == 1:
        return [0, 1]
    if signed:
        return [0, 1, -1, 2 ** (bits - 1) - 1, -2 ** (bits - 1)]
    return [0, 1, 2 ** bits - 1, 2 ** (bits - 1)]


CONVERTED = [0, 1, -1, 2, 127, 128, 200, 255, 256, -128, -129, 32767, 32768, 65535, 65536, -32769, 2 ** 31 - 1, 2 ** 31,
             2 ** 32 - 1, 2 ** 32, -2 ** 31 - 1, 2 ** 63 - 1, 2 ** 63, 2 ** 64 - 1, 2 ** 64, -2 ** 63 - 1, 2 ** 100 + 5,
             -2 ** 100 - 5]

HEAD = r'''
#include <stdio.h>
typedef __int128 wide;
static void put(wide v) {
    char text[64]; int at = 64; int negative = v < 0;
    unsigned __int128 n = negative ? -(unsigned __int128)v : (unsigned __int128)v;
    do { text[--at] = '0' + (int)(n % 10); n /= 10; } while (n);
    if (negative) text[--at] = '-';
    fwrite(text + at, 1, 64 - at, stdout);
}
static void sep(void) { putchar(' '); }
static void put_name(const char *name) { fputs(name, stdout); }
static void none(void) { fputs("none", stdout); }
#define NAME(e) _Generic((e), int: "S32", unsigned: "U32", long: "S64", unsigned long: "U64")
int main(void) {
'''


def wide(v):
    """A constant of 128 bits."""
    n = abs(v)
    text = f"((wide)((((unsigned __int128){n >> 64}ul) << 64) | {n & (2 ** 64 - 1)}ul))"
    return f"(-{text})" if v < 0 else text


def settle(ctype, bits, signed, value, known="1"):
    """Puts a result, where it is known and fits."""
    if bits == 1:
        return f"if ({known}) {{ struct {{ unsigned v : 1; }} r; r.v = (unsigned long)({value}); put(r.v); }} else none();"
    if signed:
        return f"if ({known}) {{ {ctype} r; if (__builtin_add_overflow((wide)({value}), (wide)0, &r)) none(); else put(r); }} else none();"
    return f"if ({known}) put(({ctype})({value})); else none();"


def binary(ctype, bits, signed, a, b):
    out = []
    x, y = wide(a), wide(b)
    count = f"({y} >= 0 && {y} < {bits})"
    shift = f"(int)({y} & 127)"
    typed = lambda op: f"(({ctype}){x} {op} ({ctype}){y})"
    out.append(settle(ctype, bits, signed, f"{x} + {y}"))
    out.append(settle(ctype, bits, signed, f"{x} - {y}"))
    if signed:
        out.append(f"{{ {ctype} r; if (__builtin_mul_overflow({x}, {y}, &r)) none(); else put(r); }}")
    else:
        out.append(settle(ctype, bits, signed, f"(unsigned long){x} * (unsigned long){y}"))
    divides = f"{y} != 0"
    out.append(settle(ctype, bits, signed, f"{x} / ({divides} ? {y} : 1)", divides))
    fits = f"{divides} && !({1 if signed else 0} && {x} == {wide(-2 ** (bits - 1))} && {y} == -1)"
    out.append(settle(ctype, bits, signed, f"{x} % ({divides} ? {y} : 1)", fits))
    left = f"{count} && {x} >= 0"
    out.append(settle(ctype, bits, signed, f"(wide)((unsigned __int128){x} << ({left} ? {shift} : 0))", left))
    out.append(settle(ctype, bits, signed, f"({ctype}){x} >> ({count} ? {shift} : 0)", count))
    out += [settle(ctype, bits, signed, typed(op)) for op in ("&", "|", "^")]
    out += [f"put{typed(op)};" for op in ("<", "<=", ">", ">=", "==", "!=")]
    return " sep(); ".join(out)


def unary(ctype, bits, signed, a):
    x = wide(a)
    return " sep(); ".join([settle(ctype, bits, signed, f"-{x}"), settle(ctype, bits, signed, f"~{x}")])


def program():
    lines = [HEAD]
    say = lambda text: lines.append(f'fputs("{text}", stdout);')
    for name, ctype, bits, signed in KINDS:
        for a, b in pairs(bits, signed):
            say(f"(NumKind::{name}, {a}, {b}, b\\\"")
            lines.append(binary(ctype, bits, signed, a, b))
            say("\\\"),\\n")
    for name, ctype, bits, signed in KINDS:
        for a in singles(bits, signed):
            say(f"(NumKind::{name}, {a}, b\\\"")
            lines.append(unary(ctype, bits, signed, a))
            say("\\\"),\\n")
    for v in CONVERTED:
        say(f"({v}, b\\\"")
        lines.append(" sep(); ".join(f"put(({ctype}){wide(v)});" for _, ctype, _, _ in KINDS))
        say("\\\"),\\n")
    for name, ctype, _, _ in KINDS:
        say(f"(NumKind::{name}, b\\\"")
        lines.append(" sep(); ".join([f"put_name(NAME(+({ctype})0));"] + [f"put_name(NAME(({ctype})0 + ({second})0));" for _, second, _, _ in KINDS]))
        say("\\\"),\\n")
    lines.append("return 0; }")
    return "\n".join(lines)


def rows():
    with tempfile.TemporaryDirectory() as folder:
        source, made = os.path.join(folder, "numbers.c"), os.path.join(folder, "numbers")
        with open(source, "w") as file:
            file.write(program())
        subprocess.run(["gcc", "-w", "-O0", "-o", made, source], check=True)
        return subprocess.run([made], check=True, capture_output=True, text=True).stdout.splitlines()


def plain(text):
    """The text without its layout."""
    return re.sub(r",\)", ")", re.sub(r"\s+", "", text))


def main():
    found = rows()
    if len(sys.argv) == 1:
        print("\n".join(found))
        return 0
    have = plain("".join(open(name).read() for name in sys.argv[1:]))
    at = 0
    for row in found:
        at = have.find(plain(row), at)
        if at < 0:
            print(f"not there: {row}")
            return 1
    print(f"all {len(found)} rows are there")
    return 0


sys.exit(main())

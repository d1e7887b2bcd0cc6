#!/usr/bin/env python3
"""native.py MACHINE: LLVM code for x86-64 on standard input, for MACHINE on standard output, where it differs: a struct of more than 16 bytes is answered
through the pointer that this machine has for it, and the two floats of a tile stand in a register for whole numbers."""

import re
import sys

LAYOUTS = {"aarch64": "e-m:e-p270:32:32-p271:32:32-p272:64:64-i8:8:32-i16:16:32-i64:64-i128:128-n32:64-S128-Fn32"}
LARGE = re.compile(r"define noundef ptr (@cxf_\w+)\(ptr noundef %a0")
TILE = "{ i64, double }"


def function(lines):
    """The lines of a function of the interface, for the other machine."""
    if LARGE.match(lines[0]):
        head = LARGE.sub(r"define void \1(ptr sret([8 x i8]) %a0", lines[0])
        return [head, *(re.sub(r"^(\s*)ret ptr .*", r"\1ret void", line) for line in lines[1:])]
    if f"define {TILE}" in lines[0]:
        answer = ["  %number = extractvalue { i64, double } \\1, 0", "  %floats = extractvalue { i64, double } \\1, 1", "  %bits = bitcast double %floats to i64",
                  "  %half = insertvalue { i64, i64 } poison, i64 %number, 0", "  %whole = insertvalue { i64, i64 } %half, i64 %bits, 1", "  ret { i64, i64 } %whole"]
        return [lines[0].replace(TILE, "{ i64, i64 }"), *(re.sub(r"^\s*ret \{ i64, double \} (\S+)", "\n".join(answer), line) for line in lines[1:])]
    return lines


def main():
    machine = sys.argv[1]
    code = re.sub(r'target datalayout = ".*"', f'target datalayout = "{LAYOUTS[machine]}"', sys.stdin.read())
    code = re.sub(r'target triple = ".*"', f'target triple = "{machine}-unknown-linux-gnu"', code)
    code = re.sub(r'"(target-cpu|target-features|tune-cpu)"="[^"]*"', "", code)
    parts = re.split(r"(?m)^(?=define )", code)
    sys.stdout.write(parts[0] + "".join("\n".join(function(part.split("\n"))) for part in parts[1:]))


if __name__ == "__main__":
    main()

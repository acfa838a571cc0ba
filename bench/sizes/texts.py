#!/usr/bin/env python3
"""Writes a text that is hard on the pass over sizes.

usage: texts.py lets N | loops N | calls N ARGUMENTS
  lets   a row of so many `let`s of arrays
  loops  so many loops in one another, each of which loses a size
  calls  so many `let`s, each of which calls a function of so many arrays of one size
"""
import sys


def lets(count):
    lines = [f"let a{i} = map (+ 1) a{i - 1}" for i in range(1, count)]
    return "\n".join(["def main (n: i64): i64 = let a0 = iota n", *lines, f"in length a{count - 1}"])


def loops(count):
    body = "filter (> 0) x"
    for i in range(count):
        body = f"loop x = x for i{i} < 3i64 do {body}"
    return f"def main (x: []i64): i64 = length ({body})"


def calls(count, arguments):
    parameters = " ".join(f"(a{i}: [n]i64)" for i in range(arguments))
    call = "let b = f" + " b" * arguments
    return "\n".join([f"def f [n] {parameters}: [n]i64 = a0", "def main (b: []i64): i64 =", *[call] * count, "in length b"])


if __name__ == "__main__":
    kind, *numbers = sys.argv[1:]
    print({"lets": lets, "loops": loops, "calls": calls}[kind](*map(int, numbers)))

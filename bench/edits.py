#!/usr/bin/env python3
"""Measures what lines of a script cost, on the proved program.

    bench/edits.py [PROGRAM]

Each case is a script of some objects and then many lines of one kind. Its time is compared, in the same
run, with that of the same script with `hide` of a hidden object in place of these lines, which costs the
reading of a line and one look-up; and with `cat`, which only moves the bytes. Best of five runs.
At the end stand moves of a smart object, with members beside each other and in one another.
"""
import os
import random
import subprocess
import sys
import time

LINES = 500_000


def objects(count):
    """`count` shown-nowhere rectangles in five layers."""
    lines = []
    for n in range(count):
        lines.append(f"rect r{n}")
        lines.append(f"layer r{n} {n % 5}")
    return lines


def best(program, script):
    times = []
    for _ in range(5):
        begin = time.perf_counter()
        subprocess.run(program, input=script, stdout=subprocess.DEVNULL, check=True)
        times.append(time.perf_counter() - begin)
    return min(times)


def script_of(lines):
    return ("\n".join(lines) + "\n").encode()


def groups(program):
    """What a move of a smart object costs, with 800 members and with 800 smart objects in one another."""
    flat, deep = ["smart g"], ["smart g"]
    for n in range(800):
        flat += [f"rect m{n}", f"member m{n} g"]
        deep += [f"smart s{n}", f"member s{n} {'g' if n == 0 else f's{n - 1}'}"]
    for name, made in (("800 members", flat), ("800 in one another", deep)):
        base = best(program, script_of(made))
        moves = [f"move g {n % 300} {n % 200}" for n in range(1, 5_001)]
        taken = (best(program, script_of(made + moves)) - base) / len(moves)
        print(f"{'move of ' + name:34}{taken * 1e6:10.1f} us")


def main():
    top = os.path.dirname(os.path.dirname(os.path.abspath(__file__)))
    program = [sys.argv[1] if len(sys.argv) > 1 else os.path.join(top, "crates/evas_script/out/evas_script")]
    rng = random.Random(1)
    print(f"{'lines':34}{'ns a line':>10}{'of hide':>9}{'million lines a second':>24}")
    for count in (1_000, 65_536):
        made = objects(count)
        base = best(program, script_of(made))
        picks = [rng.randrange(count) for _ in range(LINES)]
        near = [(n, (n + 5 * rng.randrange(1, count // 5)) % (count // 5 * 5)) for n in picks if n < count // 5 * 5]
        cases = [
            ("hide", [f"hide r{n}" for n in picks]),
            ("move", [f"move r{n} {n % 300} {n % 200}" for n in picks]),
            ("color", [f"color r{n} 10 20 30 255" for n in picks]),
            ("raise", [f"raise r{n}" for n in picks]),
            ("lower", [f"lower r{n}" for n in picks]),
            ("layer", [f"layer r{n} {k % 5}" for k, n in enumerate(picks)]),
            ("above", [f"above r{n} r{m}" for n, m in near if n != m and n % 5 == m % 5]),
        ]
        hide = None
        for name, lines in cases:
            script = script_of(made + lines)
            taken = (best(program, script) - base) / len(lines)
            hide = hide or taken
            print(f"{name + f' among {count} siblings':34}{taken * 1e9:10.0f}{taken / hide:9.2f}{1e-6 / taken:24.2f}")
        moved = best(["cat"], script_of(made + cases[0][1])) / LINES
        print(f"{'cat of the lines of hide':34}{moved * 1e9:10.0f}{moved / hide:9.2f}{1e-6 / moved:24.2f}")
    groups(program)


if __name__ == "__main__":
    main()

#!/bin/sh
# Times the operators of the integer domain, by hand: the least user time of seven runs of a million turns each, on
# values of a signed 64-bit type. A turn makes its two operands by two calls of `reduce` besides, so each figure is an
# upper bound. Given the program of another state of the repository, it prints its figures and the ratio too.
# Expected: the time of a turn, less that of the two calls, under 200 ns for each operator.
# The program is proved and built by `rt ci`, or by `rt run -- mul 1000` in crates/domain_bench.
root=$(CDPATH='' cd -- "$(dirname -- "$0")/.." && pwd) || exit 1
exec python3 - "$root/crates/domain_bench/out/domain_bench" "$@" <<'PYTHON'
import os
import subprocess
import sys

OPERATORS = "reduce neg invert convert to_bool join meet add sub mul div rem shl shr and or xor".split()
TURNS = 1_000_000
RUNS = 7


def user_seconds(program, operator):
    process = subprocess.Popen([program, operator, str(TURNS)], stdout=subprocess.DEVNULL)
    _, status, usage = os.wait4(process.pid, 0)
    if status != 0:
        sys.exit(f"the program ended with wait status {status}")
    return usage.ru_utime


def least(program, operator):
    return min(user_seconds(program, operator) for _ in range(RUNS)) / TURNS * 1e9


for operator in OPERATORS:
    figures = [least(program, operator) for program in sys.argv[1:]]
    ratio = f", ratio {figures[0] / figures[1]:.2f}" if len(figures) > 1 else ""
    print(f"{operator}: {', '.join(f'{figure:.0f}' for figure in figures)} ns a turn{ratio}", flush=True)
PYTHON

#!/bin/sh
# Times the built program on whole files. Without the analysis: asserts in one function, without a script and with one
# that has an emission on each assert under the one before; functions with contracts, loops and calls; and, at the end,
# scripts with many lines. With it: asserts; functions with a loop each that `main` calls twice; and ifs, 125 of them
# nested in each other at a time. Each size is twice the one before. For each it prints the least processor seconds of
# ten runs, the greatest peak memory, and the ratio of the time to that of the size before. To be run by hand. It fails
# where a ratio is over 2.5, or where the greatest size of a form takes more seconds than the form has, or over 100 MiB.
# A state of the analysis has a value for each cell of the program, and is copied where two are needed; so functions
# with locals of their own take the square of their number, and their ratio may be up to 5. The peak is no less than that
# of the Python that measures, which is some 14 MiB, and more once it has made a long script.
# The program is proved and built by `rt ci`, or by `rt run` in crates/fc_main; another one may be given.
root=$(CDPATH='' cd -- "$(dirname -- "$0")/.." && pwd) || exit 1
exec python3 - "${1:-$root/crates/fc_main/out/fc_main}" <<'PYTHON'
import os
import subprocess
import sys
import tempfile

RUNS = 10
MOST_MIB = 100

FUNCTION = """/*@ requires 0 <= n <= 100;
    ensures 0 <= \\result; */
int f%d(int n) {
  int s = 0;
  //@ loop invariant 0 <= i <= n;
  for (int i = 0; i < n; i++) %s
  if (s > 1000) s = s %% 1000;
  return s;
}
"""


def asserts(count):
    """Asserts in one function, on a line of their own each, and how many properties are printed."""
    lines = [f"//@ assert a{number}: {number} < {number + 1};" for number in range(1, count + 1)]
    return "\n".join(["int main(void) {", *lines, "return 0; }", ""]), count


def functions(count):
    """Functions that `main` calls, and every second of which calls another one in its loop; the same."""
    texts = []
    for number in range(count):
        body = f"s = f{number // 2}(i);" if number % 2 == 1 else "s = s + i;"
        texts.append(FUNCTION % (number, body))
    calls = [f"  x = f{number}(7);" for number in range(count)]
    main = "\n".join(["int main(void) {", "  int x = 0;", *calls, "  return x;", "}", ""])
    # Two clauses of a contract, an invariant, the sum or the call, the loop's step, two checks of `%`, and the call in
    # `main`.
    return "".join(texts) + main, count * 8


def emissions(count):
    """Each emission is on an assert, under the one before."""
    lines = ['{"register":"wp","correctness":[]}']
    for number in range(2, count + 1):
        lines.append(
            '{"emit":"wp","prop":"main@%d/assert/0","status":"True","hyps":["main@%d/assert/0"]}'
            % (number, number - 1)
        )
    return "\n".join([*lines, ""])


GENERATED = """int f%d(int a) {
  int r = a %% %d;
  int i;
  for (i = 0; i < %d; i++) r = (r + i) %% 1000;
  return r;
}
"""


def generated(count):
    """Functions with a loop each, which `main` calls twice in the same state."""
    number, texts, calls = 1, [], []
    for place in range(count):
        number = (number * 1103515245 + 12345) % 2**31
        texts.append(GENERATED % (place, 2 + number % 97, 1 + number // 128 % 16))
        calls += ["  s = 0;", f"  s = f{place}(7);"] * 2
    main = ["int main(void) {", "  int s = 0;", *calls, "  //@ assert range: -1000 < s < 1000;", "  return 0;", "}", ""]
    # Of each function two checks of `%`, the sum, the step, and the counter's three reads; and the assert.
    return "".join(texts) + "\n".join(main), count * 9 + 1


def ifs(count):
    """Ifs on an unknown value, of which 125 at a time are nested in each other."""
    groups = []
    for group in range(0, count, 125):
        groups.append("".join(f"if (x > {number}) " for number in range(group, group + 125)) + f"y = {group};")
    return "\n".join(["int get(void);", "int main(void) { int x = get(); int y = 0;", *groups, "return y; }", ""]), 0


def few(_):
    return asserts(10)


def lines(count):
    """Emissions on ten asserts in turn, each under the one before, and now and then a parameter that none rests on."""
    texts = ['{"register":"wp","correctness":[]}']
    for number in range(2, count + 1):
        place = number % 9 + 2
        if number % 100 == 0:
            texts.append('{"param":"x0","value":%d}' % number)
        else:
            texts.append(
                '{"emit":"wp","prop":"main@%d/assert/0","status":"True","hyps":["main@%d/assert/0"]}' % (place, place - 1)
            )
    return "\n".join([*texts, ""])


def none(_):
    return None


# What makes the file and the script, the options, the sizes, and the most seconds at the greatest size,
# and the greatest ratio.
FORMS = {
    "asserts": (asserts, none, ["--no-eva"], (2_500, 5_000, 10_000), 0.3, 2.5),
    "asserts with emissions": (asserts, emissions, ["--no-eva"], (2_500, 5_000, 10_000), 0.3, 2.5),
    "functions": (functions, none, ["--no-eva"], (250, 500, 1_000), 0.3, 2.5),
    "asserts, analysed": (asserts, none, [], (2_500, 5_000, 10_000), 0.5, 2.5),
    "functions, analysed": (generated, none, [], (100, 200, 400), 1.5, 5),
    "ifs, analysed": (ifs, none, [], (250, 500, 1_000), 0.5, 2.5),
    "lines of a script, not analysed": (few, lines, ["--no-eva"], (50_000, 100_000, 199_900), 2, 2.5),
}


def run(words, folder, rows):
    """Processor seconds and peak KiB of one run, which prints so many rows."""
    process = subprocess.Popen(words, cwd=folder, stdout=subprocess.PIPE)
    printed = process.stdout.read().decode()
    process.stdout.close()
    _, status, usage = os.wait4(process.pid, 0)
    if status != 0 or f"Total {rows}\n" not in printed:
        sys.exit(f"the program ended with wait status {status} and printed {printed[-200:]}")
    return usage.ru_utime + usage.ru_stime, usage.ru_maxrss


def measure(program, file, script, options, rows):
    with tempfile.TemporaryDirectory() as folder:
        words = [program, "report", "file.c"]
        with open(os.path.join(folder, "file.c"), "w") as out:
            out.write(file)
        if script is not None:
            words += ["--script", "script"]
            with open(os.path.join(folder, "script"), "w") as out:
                out.write(script)
        words += options
        runs = [run(words, folder, rows) for _ in range(RUNS)]
    return min(seconds for seconds, _ in runs), max(peak for _, peak in runs) / 1024


failed = False
for name, (file_of, script_of, options, sizes, most, most_ratio) in FORMS.items():
    last = None
    for count in sizes:
        file, rows = file_of(count)
        seconds, peak = measure(sys.argv[1], file, script_of(count), options, rows)
        ratio = 0 if last is None else seconds / last
        shown = "" if last is None else f", ratio {ratio:.2f}"
        is_last = count == sizes[-1]
        is_over = ratio > most_ratio or is_last and (seconds > most or peak > MOST_MIB)
        print(f"{count} {name}: {seconds:.3f} s, {peak:.1f} MiB{shown}{' OVER' if is_over else ''}", flush=True)
        failed = failed or is_over
        last = seconds
sys.exit(1 if failed else 0)
PYTHON

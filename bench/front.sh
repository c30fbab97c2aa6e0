#!/bin/sh
# Times the built program on C texts of 1, 2 and 4 MiB that its tokens and grammar take, full of asserts, of
# expressions or of declarations, up to where they end: all are typed, then the first two have too many properties, and
# the third has too many cells, one for each line. The least processor seconds of five runs,
# the greatest peak memory, and the ratio of the time to that of the size before. To be run by hand.
# Expected at 4 MiB: under 2 s and 1 GiB, and no ratio over 2.5.
# The program is proved and built by `rt ci`, or by `rt run` in crates/fc_main.
root=$(CDPATH='' cd -- "$(dirname -- "$0")/.." && pwd) || exit 1
exec python3 - "${1:-$root/crates/fc_main/out/fc_main}" <<'PYTHON'
import os
import subprocess
import sys
import tempfile

RUNS = 5
MIB = 1024 * 1024
FORMS = {
    "asserts": (b"int main(void) {\n", lambda number: b"//@ assert a%d: 1<2;\n" % number, b"return 0; }\n"),
    "expressions": (
        b"int x;\nint main(void) {\n",
        lambda number: b"x = x * (x + %d) - (x < 7 ? x / 2 : -x) %% 5;\n" % number,
        b"return x; }\n",
    ),
    "declarations": (b"", lambda number: b"static const unsigned long x%d = %dUL;\n" % (number, number), b""),
}


def text_of(form, size):
    head, line_of, tail = FORMS[form]
    parts = [head]
    room = size - len(head) - len(tail)
    number = 0
    while True:
        line = line_of(number)
        if len(line) > room:
            break
        parts.append(line)
        room -= len(line)
        number += 1
    return b"".join([*parts, tail, b" " * room])


def end_of(form, text):
    """The exit status of a run on a text, and what the program says."""
    lines = text.count(b"\n")
    if form == "declarations":
        return 6, b"limit: TooManyCells %d\n" % lines
    # The entry, `return` and the exit have a point, and each line between; an assert is a property, and a line of
    # expressions has eight alarms.
    if form == "asserts":
        return 6, b"limit: TooManyProps %d\n" % (3 + 2 * (lines - 2))
    return 6, b"limit: TooManyProps %d\n" % (3 + 9 * (lines - 3))


def run(program, folder, end):
    """Processor seconds and peak KiB of one run, which ends so."""
    words = [program, "report", "file.c", "--script", "script"]
    process = subprocess.Popen(words, cwd=folder, stdout=subprocess.DEVNULL, stderr=subprocess.PIPE)
    said = process.stderr.read()
    _, status, usage = os.wait4(process.pid, 0)
    if (os.waitstatus_to_exitcode(status), said) != end:
        sys.exit(f"the program ended with wait status {status} and {said}")
    return usage.ru_utime + usage.ru_stime, usage.ru_maxrss


def measure(program, text, end):
    with tempfile.TemporaryDirectory() as folder:
        for name, held in (("file.c", text), ("script", b"")):
            with open(os.path.join(folder, name), "wb") as out:
                out.write(held)
        runs = [run(program, folder, end) for _ in range(RUNS)]
    return min(seconds for seconds, _ in runs), max(peak for _, peak in runs)


for form in FORMS:
    last = None
    for mib in (1, 2, 4):
        text = text_of(form, mib * MIB)
        seconds, peak = measure(sys.argv[1], text, end_of(form, text))
        ratio = "" if last is None else f", ratio {seconds / last:.2f}"
        print(f"{form}, {mib} MiB: {seconds:.2f} s, {peak / 1024:.0f} MiB{ratio}", flush=True)
        last = seconds
PYTHON

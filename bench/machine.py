"""Measures the machine, beside the same loops in python3, lua and perl. Its one argument is the built program bench_machine.

Each time is the processor time that the whole process took, its start among it.
"""

import os
import shutil
import subprocess
import sys
import tempfile

COUNTS = (100_000, 1_000_000, 10_000_000)
NAMES = ("loop", "calls", "array")

PYTHON = {
    "loop": """
def run(n):
    s = i = 0
    while i < n:
        s += i % 7
        i += 1
    return s
""",
    "calls": """
def f(x, y):
    return x + y % 7
def run(n):
    s = i = 0
    while i < n:
        s = f(s, i)
        i += 1
    return s
""",
    "array": """
def run(n):
    a = [0] * 1000
    i = k = 0
    while i < n:
        k = i % 1000
        a[k] = a[k] + i % 7
        i += 1
    return a[k]
""",
}

LUA = {
    "loop": """
local function run(n)
    local s, i = 0, 0
    while i < n do s = s + i % 7; i = i + 1 end
    return s
end
""",
    "calls": """
local function f(x, y) return x + y % 7 end
local function run(n)
    local s, i = 0, 0
    while i < n do s = f(s, i); i = i + 1 end
    return s
end
""",
    "array": """
local function run(n)
    local a, i, k = {}, 0, 0
    for j = 0, 999 do a[j] = 0 end
    while i < n do k = i % 1000; a[k] = a[k] + i % 7; i = i + 1 end
    return a[k]
end
""",
}

PERL = {
    "loop": """
sub run { my ($n) = @_; my ($s, $i) = (0, 0);
    while ($i < $n) { $s += $i % 7; $i++ }
    $s }
""",
    "calls": """
sub f { my ($x, $y) = @_; $x + $y % 7 }
sub run { my ($n) = @_; my ($s, $i) = (0, 0);
    while ($i < $n) { $s = f($s, $i); $i++ }
    $s }
""",
    "array": """
sub run { my ($n) = @_; my ($i, $k) = (0, 0); my @a = (0) x 1000;
    while ($i < $n) { $k = $i % 1000; $a[$k] = $a[$k] + $i % 7; $i++ }
    $a[$k] }
""",
}

# a language, the programs that run it, the flag behind which a script stands, the loops, and the line that runs one
LANGUAGES = (
    ("python3", (sys.executable,), "-c", PYTHON, "print(run(%d))\n"),
    ("lua", ("lua5.4", "lua5.3", "lua"), "-e", LUA, "print(run(%d))\n"),
    ("perl", ("perl",), "-e", PERL, "print run(%d);\n"),
)


def run(command):
    """Runs a command: the seconds of processor time, and what it wrote."""
    with tempfile.TemporaryFile() as text:
        process = subprocess.Popen(command, stdout=text)
        _, status, usage = os.wait4(process.pid, 0)
        process.returncode = os.waitstatus_to_exitcode(status)
        text.seek(0)
        written = text.read().decode()
    assert process.returncode == 0, (process.returncode, command)
    return usage.ru_utime + usage.ru_stime, written.split()


def seconds(command):
    """The least seconds of three runs, and the words that the command wrote."""
    runs = [run(command) for _ in range(3)]
    return min(run[0] for run in runs), runs[0][1]


def beside(name, count, result):
    """The least seconds of each language for the same loop."""
    for language, programs, flag, loops, call in LANGUAGES:
        program = next(filter(None, map(shutil.which, programs)), None)
        if program is None:
            yield None
            continue
        spent, words = seconds([program, flag, loops[name] + call % count])
        assert words == [result], (language, name, count, words, result)
        yield spent


def main():
    program = os.path.abspath(sys.argv[1])
    languages = " | ".join(language for language, *_ in LANGUAGES)
    print(f"| Program | n | seconds | against n / 10 | million instructions a second | {languages} |")
    print("|---|---|---|---|---|---|---|---|")
    for name in NAMES:
        before = None
        for count in COUNTS:
            ours, words = seconds([program, name, str(count)])
            _, _, result, instructions = words
            theirs = " | ".join("" if spent is None else f"{spent:.3f}" for spent in beside(name, count, result))
            growth = f"{ours / before:.1f}" if before else ""
            speed = int(instructions) / ours / 1e6
            print(f"| {name} | {count} | {ours:.3f} | {growth} | {speed:.0f} | {theirs} |", flush=True)
            before = ours


if __name__ == "__main__":
    main()

"""Measures the command `print`. Its one argument is the built program clinda_main."""

import os
import shutil
import subprocess
import sys
import tempfile
import time

SIZES = (104_858, 314_573, 1_048_576)


def within(size, front, parts, back):
    """The front, as many of the parts as the size takes, and the back."""
    text, left = [front], size - len(front) - len(back)
    for part in parts:
        if len(part) > left:
            break
        text.append(part)
        left -= len(part)
    return "".join(text) + back


def endless(make):
    number = 0
    while True:
        yield make(number)
        number += 1


SOURCES = {
    "statements": lambda size: within(
        size,
        "int a[10]; int x;\nint real_main() {\n",
        endless(lambda n: f"if (x < {n}) {{ a[x % 10] += 2 * (x - {n}); x++; }} else x = {n};\n"),
        "return x; }\n",
    ),
    "one expression": lambda size: within(
        size, "int x;\nint real_main() { x = 0", endless(lambda n: f" + {n} * x"), "; return x; }\n"
    ),
    "one comment": lambda size: within(size, "int x; /*", endless(lambda n: " words"), "*/\n"),
    "names": lambda size: within(size, "", endless(lambda n: f"int name_{n};\n"), ""),
}


def measure(command, path):
    """The least seconds of three runs on a file, and the most kilobytes that one of them held."""
    least, most = None, 0
    for _ in range(3):
        with open(path, "rb") as source:
            start = time.perf_counter()
            process = subprocess.Popen(
                command, stdin=source, stdout=subprocess.DEVNULL, stderr=subprocess.DEVNULL
            )
            _, status, usage = os.wait4(process.pid, 0)
            spent = time.perf_counter() - start
            process.returncode = os.waitstatus_to_exitcode(status)
        assert process.returncode == 0, (command, path, process.returncode)
        least = spent if least is None else min(least, spent)
        most = max(most, usage.ru_maxrss)
    return least, most


def main():
    program = sys.argv[1]
    gcc = ["gcc", "-fsyntax-only", "-w", "-x", "c", "-"] if shutil.which("gcc") else None
    print("| Source | bytes | seconds | MB | against the smallest | gcc, seconds |")
    print("|---|---|---|---|---|---|")
    with tempfile.TemporaryDirectory() as folder:
        path = f"{folder}/source.c"
        for name, make in SOURCES.items():
            first = None
            for size in SIZES:
                text = make(size)
                with open(path, "w", encoding="ascii") as source:
                    source.write(text)
                spent, kilobytes = measure([program, "print"], path)
                first = first or spent
                beside = f"{measure(gcc, path)[0]:.3f}" if gcc else "absent"
                print(
                    f"| {name} | {len(text)} | {spent:.3f} | {kilobytes / 1000:.0f} "
                    f"| {spent / first:.1f} | {beside} |"
                )


if __name__ == "__main__":
    main()

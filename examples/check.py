"""Compares the texts of the examples, and those in docs/LANGUAGE.md, with what the program gives. Its one argument is
the built program.

NAME.txt is what `seq 1` writes of NAME.cl, NAME.print.txt is what `print` writes of it.

In the manual a block of C with a block of text behind it is an example; the words behind `text` are those of the
command, `seq 1` if there are none. In a table whose last column has examples the first column names the kind of the
refusal, whose place is marked by `^`, or the trap.
"""

import pathlib
import re
import subprocess
import sys

FOLDER = pathlib.Path(__file__).parent
MANUAL = FOLDER.parent / "docs" / "LANGUAGE.md"

BLOCKS = re.compile(r"```c\n(.*?)```\n+```text ?([^\n]*)\n(.*?)```\n", re.S)
# what stands before a piece of code in a cell, and the piece
PIECE = re.compile(r"([^`]*)`([^`]+)`")
TIMES = re.compile(r"([\d,]+) times")


def files():
    """What is wanted of each file: its name, the words, the source, and the text."""
    for text in sorted(FOLDER.glob("*.txt")):
        words = ["print"] if text.name.endswith(".print.txt") else ["seq", "1"]
        source = FOLDER / (text.name.split(".")[0] + ".cl")
        yield source.name, words, source.read_bytes(), text.read_bytes()


def blocks(manual):
    """The same of each block of C in the manual."""
    for source, words, text in BLOCKS.findall(manual):
        yield MANUAL.name, words.split() or ["seq", "1"], source.encode(), text.encode()


def rows(manual):
    """The kind and the examples of each row of the tables of examples."""
    reading, kind = False, ""
    for line in manual.splitlines():
        cells = [cell.strip() for cell in re.split(r"(?<!\\)\|", line)[1:-1]]
        if not cells:
            reading = False
        elif cells[-1] in ("Example", "Examples"):
            reading = True
        elif reading and cells[0].startswith("`"):
            kind = cells[0].strip("`")
        if reading:
            yield kind, cells[-1].replace("\\|", "|")


def sources(cell):
    """The sources in a cell. The pieces of one are its lines, each but the first with `then` before it."""
    source = None
    for before, piece in PIECE.findall(cell):
        times = TIMES.search(before)
        line = piece * int(times[1].replace(",", "")) if times else piece
        if source is not None and "then" in before:
            source += "\n" + line
        else:
            if source is not None:
                yield source
            source = line
    if source is not None:
        yield source


def cells(manual):
    """What is wanted of each example in a table. Of a trap it is the beginning of the text."""
    for kind, cell in rows(manual):
        for marked in sources(cell):
            before = marked.split("^")[0]
            place = f"{before.count(chr(10)) + 1}:{len(before) - (before.rfind(chr(10)) + 1) + 1}"
            text = f"refused {kind} at {place}\n" if "^" in marked else f"process 0 trapped {kind} acts "
            yield MANUAL.name, ["seq", "1"], marked.replace("^", "", 1).encode(), text.encode()


def fits(written, text):
    """Whether a text is what is wanted: a row of bytes without a line end at its end is a beginning."""
    return written.startswith(text) if text and not text.endswith(b"\n") else written == text


def main():
    program, done, failed = sys.argv[1], 0, 0
    manual = MANUAL.read_text(encoding="utf-8")
    for name, words, source, text in [*files(), *blocks(manual), *cells(manual)]:
        run = subprocess.run([program, *words], input=source, stdout=subprocess.PIPE)
        done += 1
        if not fits(run.stdout, text):
            failed += 1
            print(f"{name}, {' '.join(words)}: status {run.returncode}\n{source[:2000].decode()}\n{run.stdout.decode()}")
    print(f"{done} examples, {failed} failed")
    return 1 if failed else 0


if __name__ == "__main__":
    sys.exit(main())

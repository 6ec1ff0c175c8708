#!/usr/bin/env python3
"""Breaks each wanted value of each row, and says which breaks a program of rows doesn't tell: break_rows.py PROGRAM FILE..

PROGRAM is the built program of tests, and each FILE one of its files of rows. A copy of the file is made for each break, with one
wanted number raised, one wanted byte changed, or one wanted word put for another, and played alone: the program has to print a row and
end in status 1. The exit status is 0 where each break was told.
"""
import concurrent.futures
import os
import re
import subprocess
import sys
import tempfile

# Rows that begin so give something, and want nothing.
GIVEN = ("file", "lies", "variable", "process", "spoil", "told")
# The words behind which a row says what is wanted.
WANTED = ("ends", "saying", "prints", "holds", "has", "is", "made", "verdict", "reads", "have", "says", "gives", "asked", "item")
OTHERS = {
    "good": "broken",
    "absent": "holds",
    "Hit": "Miss",
    "Miss": "Busy",
    "Stored": "Kept",
    "Kept": "Stored",
    "Busy": "Stored",
}


def breaks_of(row):
    """Each way to break what a row wants."""
    head = re.sub(r"^((until|from) \d+ )+", "", row).split()[0]
    if head in GIVEN:
        return
    wanted = ("ends", "saying", "prints") if head == "run" else WANTED
    places = [m.end() for word in wanted for m in re.finditer(rf"(?<=\s){word}(?=\s)", row)]
    if row.startswith("made "):
        places.append(5)
    if not places:
        return
    begin = min(places)
    for match in re.finditer(r'"[^"]*"|\S+', row[begin:]):
        word = match.group()
        new = other(word)
        if new is not None:
            yield row[: begin + match.start()] + new + row[begin + match.end():]


def other(word):
    """Another word of the same kind."""
    if word in OTHERS:
        return OTHERS[word]
    if word.startswith('"'):
        return '"x' + word[1:] if len(word) > 1 else None
    if re.fullmatch(r"\d+", word) and len(word) < 12:
        return str(int(word) + 1)
    if re.fullmatch(r"[0-9a-f]+", word) and len(word) % 2 == 0:
        return f"{int(word[:2], 16) ^ 1:02x}" + word[2:]
    return None


def is_told(program, name, lines):
    """Whether the program refuses these lines."""
    with tempfile.TemporaryDirectory() as work:
        with open(os.path.join(work, name), "w") as file:
            file.write("\n".join(lines) + "\n")
        ran = subprocess.run([program, name], cwd=work, capture_output=True, text=True)
        return ran.returncode == 1 and f"{name}:" in ran.stdout


def case_of(lines, at):
    """The lines of the case of a line, with the names that stand before it."""
    begin = at
    while not lines[begin].startswith("case "):
        begin -= 1
    end = at + 1
    while end < len(lines) and not lines[end].startswith("case "):
        end += 1
    names = [line for line in lines[:begin] if line.startswith("let ")]
    return names, begin, lines[begin:end]


def main():
    program = os.path.abspath(sys.argv[1])
    jobs = []
    for path in sys.argv[2:]:
        lines = open(path).read().split("\n")
        for at, row in enumerate(lines):
            if not row.strip() or row.startswith(("#", "let ", "case ")):
                continue
            for new in breaks_of(row):
                names, begin, case = case_of(lines, at)
                case = list(case)
                case[at - begin] = new
                jobs.append((path, at + 1, new, names + case))
    untold = 0
    with concurrent.futures.ThreadPoolExecutor(os.cpu_count()) as pool:
        told = pool.map(lambda job: is_told(program, os.path.basename(job[0]), job[3]), jobs)
        for (path, line, new, _), well in zip(jobs, told):
            if not well:
                untold += 1
                print(f"{path}:{line}: not told: {new}")
    print(f"{len(jobs)} breaks, {untold} not told")
    sys.exit(1 if untold else 0)


main()

"""Rows of the program: how they are read, run and compared. README.md tells how a row is written."""
import argparse
import os
import re
import subprocess
import sys
import tempfile
from concurrent.futures import ThreadPoolExecutor
from dataclasses import dataclass, field, replace
from pathlib import Path
from typing import Dict, List, Optional

HERE = Path(__file__).resolve().parent
TOP = HERE.parent.parent
HEADING = re.compile(r"--- (words|file|before|seconds|out has|out|err has|err|status|each|note)(?: (.*))?")
REPETITION = re.compile(r"\\\{(\d+):(.*?)\}", re.DOTALL)
ESCAPE = re.compile(r"\\(x[0-9A-Fa-f]{2}|[\n\\ntr])")
ESCAPED = {"\n": b"", "\\": b"\\", "n": b"\n", "t": b"\t", "r": b"\r"}
# stands for the mark | of a table's line
MARK = "\ue000"
# the line of a fault with a number, and that of what the machine refuses
FAULT = re.compile(rb"[A-Z]\d+( (at|trap|line|item|process) \d+|( \d+\.\d+)+( by [\w-]+)?| \w+)?\n")
REFUSAL = re.compile(rb"(NoMemory|cannot [^\n]*)\n")
# that a sentence is shown at a place of a file
EXPLAINED = re.compile(r"shown in (\w+) at (\d+): (.*)")
# that a text with a mending has its next fault at a place
THEN = re.compile(r" / (with.*?), then at (\d+): ")
# that a call traps, at a place of a file
TRAPPED = re.compile(r"(call \d+\.\d+, line \d+ of \w+: trap \d), shown in (\w+) at (\d+): (.*)")
# that an opening traps, at a place of a file
OPENED = re.compile(r"(O2 trap \d), shown in (\w+) at (\d+): (.*)")
WORD = re.compile(rb"[A-Za-z][A-Za-z0-9_]*")
NO_MEMORY = b"NoMemory\n"
# what `explain` says behind the last fault of a module that it tells, where there may be more
MORE = b"there may be more faults behind this one\n"


class BadRow(Exception):
    """A row file out of form."""


@dataclass
class Row:
    """A run of the program and what has to come of it. What is None is not looked at. Words and files are as they are written,
    with escapes. A stream is empty where nothing is said of it."""

    words: str = ""
    files: Dict[str, str] = field(default_factory=dict)
    before: str = ""
    seconds: int = 20
    status: Optional[int] = None
    out: Optional[bytes] = b""
    err: Optional[bytes] = b""
    out_has: Optional[List[bytes]] = None
    err_has: Optional[List[bytes]] = None
    is_read: bool = False
    place: str = ""


def expand(text):
    """The bytes that a text stands for: its repetitions are written out, and then its escapes."""
    whole = REPETITION.sub(lambda it: "".join(it[2].replace("\\#", str(n)) for n in range(int(it[1]))), text)
    parts = ESCAPE.split(whole)
    parts[::2] = [it.encode() for it in parts[::2]]
    parts[1::2] = [bytes.fromhex(it[1:]) if it[0] == "x" else ESCAPED[it] for it in parts[1::2]]
    return b"".join(parts)


def sections_of(path):
    """The sections of a file: the number of the first line, the kind, what stands behind it, and the lines."""
    sections = []
    for number, line in enumerate(path.read_text(encoding="utf-8").split("\n")[:-1], 1):
        heading = HEADING.fullmatch(line)
        if heading:
            sections.append((number, heading[1], heading[2] or "", []))
        elif line.startswith("--- "):
            raise BadRow(f"{path}: line {number} is no heading")
        elif sections:
            sections[-1][3].append(line)
    return sections


def rows_of(path):
    """The rows of a file, which begin with what the file `common` of its folder says: one, or those of its tables."""
    row, tables = Row(), []
    common = path.with_name("common")
    for number, kind, said, lines in (sections_of(common) if common.exists() else []) + sections_of(path):
        if kind == "each":
            tables.append((row, number, said, lines))
        elif kind != "note":
            row = with_section(row, kind, said, lines)
    label = path.relative_to(HERE).with_suffix("")
    unused = row is not tables[-1][0] if tables else sum(kind == "words" for _, kind, _, _ in sections_of(path)) > 1
    if unused:
        raise BadRow(f"{label}: what stands there belongs to no row; each run has a file of its own, or stands in a table")
    if not tables:
        return [replace(row, place=str(label))]
    return [tabled(*it, f"{label}:{number}") for table in tables for number, *it in lines_of(*table)]


def with_section(row, kind, said, lines):
    """The row with what a section says."""
    text = "".join(line + "\n" for line in lines)
    if kind == "file":
        return replace(row, files={**row.files, said: text})
    if kind in ("words", "status", "seconds"):
        return replace(row, **{kind: said if kind == "words" else int(said)})
    stream, _, has = kind.partition(" ")
    if has:
        return replace(row, **{stream: None, f"{stream}_has": [expand(line) for line in lines]})
    return replace(row, **{kind: text if kind == "before" else expand(text)})


def lines_of(row, number, answer, lines):
    """The lines of a table, each with its number, the row that it belongs to, its text and its answer."""
    answer = answer[3:] if answer.startswith("=> ") else answer
    for line in lines:
        number += 1
        text, arrow, own = (" " + line).rpartition(" => ")
        if line.strip():
            yield (number, row, line, answer) if answer or not arrow else (number, row, text[1:], own)


def tabled(row, text, answer, place):
    """The row of a line of a table."""
    if "|" in answer:
        text = text.replace("|", MARK, 1)
    text = text.replace(" / ", "\n")
    row = replace(row, place=place, words=row.words.replace("{}", text))
    if row.out_has is not None:
        row = replace(row, out_has=[it.replace(b"{}", text.encode()) for it in row.out_has])
    files = {name: it.replace("{}", text) for name, it in row.files.items()}
    for name, file in files.items():
        if MARK in file:
            answer = answer.replace("|", str(expand(file).index(MARK.encode())))
            files[name] = file.replace(MARK, "")
    if "|" in answer:
        raise BadRow(f"{place}: there is no mark")
    return answered(replace(row, files=files), answer)


def explained(name, text, place, sentence):
    """What `explain` shows of a fault at a place of a text with this name: the place by line and column, the line, a mark below the
    column, and the name or keyword there with the sentence. Of a line of over 160 bytes it is what stands near the place. Behind ` / `
    stands a hint, or what is told of the text with a slip mended, in a line of its own."""
    begin = text.rfind(b"\n", 0, place) + 1
    line = text[begin:].split(b"\n")[0]
    left, right = line[: place - begin], line[place - begin :]
    cut_left, cut_right = (len(line) > 160 and len(it) > 80 for it in (left, right))
    left, right = left[len(left) - 79 :] if cut_left else left, right[:79] if cut_right else right
    seen = bytes(it if it == 9 or 32 <= it <= 126 else 32 if it == 13 else 63 for it in left + right)
    seen = "…".encode() * cut_left + seen + "…".encode() * cut_right
    below = b" " * cut_left + bytes(9 if it == 9 else 32 for it in left)
    word = WORD.match(line[place - begin :])
    named = b"`" + word[0] + b"`: " if word else b""
    at = f"{name}:{text.count(10, 0, place) + 1}:{place - begin + 1}"
    said = sentence.replace(" / hint: ", "\nhint: ").replace(" / with ", "\nwith ")
    return b"".join(it + b"\n" for it in (at.encode(), seen, below + b"^", named + said.encode()))


def explained_in_turn(row, name, told):
    """The same of one fault behind the other: each stands behind ` / `, how the text was mended before it, and its place. Where it isn't said
    that the text with the last mending has no other fault, there may be more in a module."""
    text, shown, faults = expand(row.files[name]), b"", THEN.split(told)[1:]
    for mending, place, sentence in zip(faults[::3], faults[1::3], faults[2::3]):
        shown += f"{mending}, the next fault is:\n".encode() if shown else b""
        shown += explained(name, text, int(place), sentence)
    return shown + (MORE if name == row.words.split()[1] and " / with " not in faults[-1] else b"")


def answered(row, answer):
    """The row with the answer of a table: 'is read', 'nothing', what is shown, a trap, the line of a fault, or what is printed."""
    if not answer:
        return row
    if answer == "is read":
        return replace(row, is_read=True, out=None, err=None)
    if answer == "nothing":
        return replace(row, out=b"", err=b"")
    told = EXPLAINED.fullmatch(answer)
    if told:
        return replace(row, out=b"", err=explained_in_turn(row, told[1], f" / with, then at {told[2]}: {told[3]}"))
    trap = TRAPPED.fullmatch(answer)
    if trap:
        shown = explained(trap[2], expand(row.files[trap[2]]), int(trap[3]), trap[4])
        return replace(row, out=trap[1].encode() + b"\n" + shown, err=b"")
    opened = OPENED.fullmatch(answer)
    if opened:
        shown = explained(opened[2], expand(row.files[opened[2]]), int(opened[3]), opened[4])
        return replace(row, out=b"", err=opened[1].encode() + b"\n" + shown)
    lines = expand(answer.replace(" / ", "\n") + "\n")
    is_fault = FAULT.fullmatch(lines) or REFUSAL.fullmatch(lines)
    return replace(row, out=b"", err=lines) if is_fault else replace(row, out=lines, err=b"")


def contents_of(row):
    """The row's files, with their bytes."""
    return {os.fsdecode(expand(name)): expand(text) for name, text in row.files.items()}


def run(row, program, files, env=None):
    """What the program does with these files: its status, standard output and standard error."""
    words = [b"" if it == '""' else expand(it) for it in row.words.split()]
    with tempfile.TemporaryDirectory(prefix="row-") as room:
        for name, content in files.items():
            Path(room, name).write_bytes(content)
        shell = ["bash", "-c", f'{row.before}\nexec "$0" "$@"', program, *words] if row.before else [program, *words]
        how = {"cwd": room, "env": env, "stdin": subprocess.DEVNULL, "timeout": row.seconds}
        ran = subprocess.run(shell, stdout=subprocess.PIPE, stderr=subprocess.PIPE, **how)
    return ran.returncode, ran.stdout, ran.stderr


def wanted_status(row):
    """The status that the row names, or else the one that goes with its line on standard error."""
    if row.status is not None or row.err is None:
        return row.status
    return 3 if REFUSAL.fullmatch(row.err) else 1 if row.err else 0


def compared(row, status, out, err):
    """What differs in these answers from what the row says."""
    wanted = wanted_status(row)
    told = [] if wanted in (None, status) else [f"status {status} in place of {wanted}"]
    if row.is_read and (status not in (0, 1) or re.match(rb"[SP]\d", err)):
        told.append(f"the text is not read: status {status}, {shown(err)}")
    for stream, had, whole, parts in (("output", out, row.out, row.out_has), ("error", err, row.err, row.err_has)):
        if whole not in (None, had):
            told.append(f"standard {stream} is {shown(had)} in place of {shown(whole)}")
        told += [f"standard {stream} has no {shown(it)}: {shown(had)}" for it in parts or [] if it not in had]
        if parts == [] and not had:
            told.append(f"standard {stream} is empty")
    return told


def differences(row, program):
    """What differs from what the row says, in a run of it."""
    return compared(row, *run(row, program, contents_of(row)))


def shown(text):
    """A text as a failure shows it."""
    return repr(text)[1:] if len(text) <= 400 else f"{repr(text[:200])[1:]} .. {repr(text[-100:])[1:]} ({len(text)} bytes)"


def found(names):
    """The rows that names of files and folders mean."""
    files = []
    for name in names:
        path = next((it for it in (Path(name), HERE / name, HERE / f"{name}.row") if it.exists()), None)
        if path is None:
            raise BadRow(f"there is no row {name}")
        path = path.resolve()
        files += sorted(path.rglob("*.row")) if path.is_dir() else [path]
    return [row for path in files for row in rows_of(path)]


def by_tree(row):
    """A row of `run`, by the tree of its module."""
    return replace(row, words=f"{row.words} --tree", place=f"{row.place}+tree")


def verified(row):
    """That the record which a row of `run` prints is verified."""
    module = row.words.split()[1]
    files = {module: row.files[module], "record": row.out.decode()}
    return replace(row, words=f"verify {module} record", files=files, out=b"ok\n", place=f"{row.place}+verified")


def found_in_ways(names):
    """The rows of these names. Behind `+tree` they are those of `run` by the tree of their module, and behind `+verified` their records,
    where they print one."""
    for name in names:
        name, _, way = name.partition("+")
        for row in found([name]):
            if way == "tree":
                yield by_tree(row)
            elif way == "verified":
                if row.out and row.out.startswith(b"obl0 record"):
                    yield verified(row)
            elif way:
                raise BadRow(f"there is no way +{way}")
            else:
                yield row


def program_of_sources():
    """The program of these sources: the one that was proved and built here, or the shipped one, or else it is proved and built."""
    found = subprocess.run([TOP / "dist/program"], stdout=subprocess.PIPE, text=True)
    if found.returncode:
        sys.exit("rows: there is no program to run")
    return found.stdout.strip()


def main(about, look, names, read=found):
    """Reads the command line, has `look` try each row that `read` finds under its names, or these, on the program, and prints what
    `look` tells. The status is 1 where it tells anything."""
    reader = argparse.ArgumentParser(description=about, formatter_class=argparse.RawDescriptionHelpFormatter)
    reader.add_argument("--program", help="the program that is run", metavar="PATH")
    reader.add_argument("names", nargs="*", default=names)
    asked = reader.parse_args()
    try:
        rows = read(asked.names)
    except (BadRow, OSError, ValueError) as why:
        sys.exit(f"rows: {why}")
    program = os.path.abspath(asked.program or program_of_sources())
    failed = 0
    with ThreadPoolExecutor(os.cpu_count()) as pool:
        for row, told in zip(rows, pool.map(lambda it: tried(look, it, program), rows)):
            failed += bool(told)
            for line in told:
                print(f"{row.place}: {line}")
    print(f"{len(rows) - failed} passed, {failed} failed")
    return 1 if failed else 0


def tried(look, row, program):
    """What `look` tells of a row, or that a run took too long."""
    try:
        return look(row, program)
    except subprocess.TimeoutExpired:
        return [f"no answer in {row.seconds} seconds"]

"""What the benches of whole runs share: the proved program, plain programs, and what a run of either costs."""
import os
import pathlib
import re
import shutil
import subprocess
import tempfile

TOP = pathlib.Path(__file__).resolve().parent.parent


def proved_program():
    """The path of the program of these sources, or of OBL0 where that is set."""
    if "OBL0" in os.environ:
        return os.environ["OBL0"]
    return subprocess.run([TOP / "dist/program"], stdout=subprocess.PIPE, text=True, check=True).stdout.strip()


def plain_program(name, source=None):
    """The path of the plain program of bench/NAME, or of another source, built where it is older; None where there is no rustc."""
    source = pathlib.Path(source or TOP / "bench" / name / "main.rs")
    program = source.parent / "out" / name
    if not program.is_file() or program.stat().st_mtime < source.stat().st_mtime:
        if shutil.which("rustc") is None:
            return None
        program.parent.mkdir(exist_ok=True)
        subprocess.run(["rustc", "--edition", "2024", "-O", "-o", program, source], check=True)
    return str(program)


def said(words):
    """What a program prints, which has to end well."""
    return subprocess.run(words, stdout=subprocess.PIPE, text=True, check=True).stdout


def cost(words, runs=5, ends_well=True):
    """Seconds of one processor of the quickest of some runs, which have to end well, or with a fault."""
    found = []
    nowhere = [(os.POSIX_SPAWN_OPEN, out, os.devnull, os.O_WRONLY, 0) for out in ([1] if ends_well else [1, 2])]
    for _ in range(runs):
        child = os.posix_spawn(words[0], words, os.environ, file_actions=nowhere)
        _, status, used = os.wait4(child, 0)
        if (status == 0) != ends_well:
            raise SystemExit(f"{' '.join(words)}: ended with {status}")
        found.append(used.ru_utime + used.ru_stime)
    return min(found)


def instructions(words):
    """The instructions of a run, by callgrind; None where there is no valgrind."""
    if shutil.which("valgrind") is None:
        return None
    ran = subprocess.run(["valgrind", "--tool=callgrind", "--callgrind-out-file=/dev/null", *words], capture_output=True, text=True)
    counted = re.search(r"Collected : (\d+)", ran.stderr)
    if counted is None:
        raise SystemExit(f"{' '.join(words)}: {ran.stderr}")
    return int(counted[1])


def peak(words):
    """The most KiB of memory of a run, the program itself included; None where there is no C compiler to build what measures it."""
    source, program = TOP / "bench/peak_memory.c", TOP / "bench/out/peak_memory"
    if not program.is_file() or program.stat().st_mtime < source.stat().st_mtime:
        program.parent.mkdir(exist_ok=True)
        if shutil.which("cc") is None:
            return None
        subprocess.run(["cc", "-O", "-o", program, source], check=True)
    return int(subprocess.run([program, *words], stdout=subprocess.PIPE, text=True, check=True).stdout)


def written(room, name, text):
    """The path of a file with this text."""
    path = pathlib.Path(room, name)
    path.write_text(text)
    return str(path)


def room():
    """A folder for a while."""
    return tempfile.TemporaryDirectory()

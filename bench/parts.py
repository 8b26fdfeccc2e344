"""What the scripts here share: medians, instructions, personnel files, and programs over the crates."""
import os
import pathlib
import re
import shutil
import statistics
import subprocess
import sys
import tempfile

TOP = pathlib.Path(__file__).resolve().parent.parent
HEADER = "login,revision,number,given,family,mail,status\n"


def medians(rounds, one, other):
    """The median of the ratios of two figures of each round, with the least and the greatest."""
    ratios = sorted(it[one] / it[other] for it in rounds)
    return statistics.median(ratios), ratios[0], ratios[-1]


def instructions(words, statuses=(0,), sent=b""):
    """The instructions that one run takes, counted by valgrind, and what the run prints."""
    with tempfile.TemporaryDirectory() as folder:
        counts = pathlib.Path(folder) / "counts"
        command = ["valgrind", "--tool=callgrind", f"--callgrind-out-file={counts}", *map(str, words)]
        ends = {"stdout": subprocess.PIPE, "stderr": subprocess.DEVNULL}
        run = subprocess.run(command, input=sent, check=False, **ends)
        if run.returncode not in statuses:
            sys.exit(f"{words[0]} ended with status {run.returncode}")
        text = counts.read_text(encoding="utf-8")
        return int(re.search(r"^(?:summary|totals): (\d+)", text, re.M).group(1)), run.stdout


def write_users(path, count):
    """Writes a personnel file of so many users, one in ten of whom has left."""
    with open(path, "w", encoding="utf-8") as file:
        file.write(HEADER)
        for n in range(count):
            status = "left" if n % 10 == 9 else "active"
            file.write(f"user{n:06},{n % 1000 + 1},{n},Given{n},Family{n},user{n}@example.com,{status}\n")


# ---- programs in Rattle beside the crates that they call


def crates(top=TOP):
    """What each crate of a checkout stands on."""
    lines = (top / "crates.txt").read_text(encoding="utf-8").splitlines()
    pairs = [line.split(":") for line in lines if ":" in line and not line.startswith("#")]
    return {name.split()[0]: below.split() for name, below in pairs}


def below(names, all_crates):
    """These crates and all that they stand on."""
    found, rest = set(), list(names)
    while rest:
        name = rest.pop()
        if name in all_crates and name not in found:
            found.add(name)
            rest += all_crates[name]
    return found


def lay_out(room, programs, top=TOP):
    """Copies into a folder what these programs call, from a checkout. The source of NAME is NAME.rattle, here."""
    room, all_crates = pathlib.Path(room), crates(top)
    wanted = below([crate for libraries in programs.values() for crate in libraries], all_crates)
    for name in wanted:
        shutil.copytree(top / "crates" / name, room / "crates" / name)
    rows = {name: all_crates[name] for name in wanted}
    rows |= {f"{name}_bench": libraries for name, libraries in programs.items()}
    text = "".join(f"{name}: {' '.join(libraries)}\n" for name, libraries in rows.items())
    (room / "crates.txt").write_text(text, encoding="utf-8")
    shutil.copy(top / "HANDLES", room)
    for name in programs:
        source = room / "crates" / f"{name}_bench" / "src"
        source.mkdir(parents=True)
        shutil.copy(TOP / "bench" / f"{name}.rattle", source / "main.rt")


def build(room, name, arguments):
    """Proves and builds a program that was laid out, runs it once with these arguments: where it is."""
    folder = pathlib.Path(room) / "crates" / f"{name}_bench"
    subprocess.run(["rt", "run", "--", *arguments], cwd=folder, stdout=subprocess.DEVNULL, check=True)
    return os.path.join(folder, "out", f"{name}_bench")

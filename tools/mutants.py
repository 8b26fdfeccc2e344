#!/usr/bin/env python3
"""Mutants: changes of the code that break a promise, each of which the prover must reject.

edits/NAME.edit holds those of the crate NAME, an empty line between two:

    mutant: a name
    rejected by: FUNCTION · CLAUSE
    file: src/FILE.rt
    old: a text of one line that is in the file exactly once; leading spaces count
    new: the text that replaces it

Further pairs of old: and new:, and further files, apply to what the earlier ones made. Only a run writes
`rejected by`: the clause, or the goal of the code, that the prover couldn't prove in each function that the
mutant changes. A run is

    tools/mutants.py [--jobs N] [NAME..]    tries the mutants of these crates, or of all

It proves each crate as it is first, over the proofs that `rt check` keeps. Then it tries the crate's mutants
over those proofs, many in one check, but never two that change one function: each function that a mutant
changes must be rejected by a goal of its own. A mutant that changes no function (a constant, a definition)
is tried alone, and anything in the crate may reject it. Results are written as they come. What this clone
has tried stands in out/mutants, and isn't tried again until the crate, a crate below it or the mutant
changes; `rm -r out/mutants` forgets it. Clones can share the work: a run over a copy of what they have there
tries nothing again.

If all of a crate's mutants were rejected, edits/refused.txt gets a sum over the crate's texts, without
comments, the layout of code and derived traits, and over its mutants, without `rejected by`. If one wasn't,
the crate loses its sum.

    tools/mutants.py --sums                 tries nothing; reports the mutants that don't apply, and the
                                            crates whose sum isn't that of what is there
"""
import argparse
import concurrent.futures
import contextlib
import functools
import os
import pathlib
import re
import shutil
import signal
import subprocess
import sys
import tempfile
import threading
import time

from mutant_files import CRATES, PARTS, ROOT, TRIED, Fault, alone, crates_with_mutants, faults_of, function_at
from mutant_files import is_current, keep_sum, read_mutants, sum_of, sum_of_crate, sum_of_texts, text_of, unrecorded
from mutant_files import write_mutants

# Seconds that a check with mutants may take
MOST_SECONDS = 3600
NOT_REJECTED = "NOT REJECTED"
# What the prover prints of a goal that isn't proved, by its place in the code or in the function's own proof
OPEN_IN_CODE = re.compile(r"^note: (?:\./)?(src/\S+\.rt):(\d+):\d+: (?:it is not proved|`search` found no proof)"
                          r"(?:.*?\(`([^`\n]+)`\))?", re.M)
OPEN_IN_PROOF = re.compile(r"^(?:\./)?proofs/(\S+)/[A-Z]\w*\.antt:\d+:\d+: error(?:: `([^`\n]+)`)?(.*)", re.M)
ANY_ERROR = re.compile(r"^(?:\./)?((?:src|specs|proofs)/\S+):\d+:\d+: error(?:: `([^`\n]+)`)?", re.M)
# A proof that names what the mutant took away says little of the contract
OF_NAMES = re.compile(r"has no field|is not in scope|has no `|was not admitted")
VERDICT = re.compile(r"^logic=", re.M)
# What it prints beside that
OF_PROVED = re.compile(r": proved$|^(checked|statements) ")


# ---- the prover


class Checks:
    """Commands that end when the run ends."""

    def __init__(self):
        self.running, self.is_ended, self.own = set(), False, threading.Lock()

    def output(self, told, folder, seconds=None):
        """What a command prints, and its status. It is killed after these seconds."""
        how = {"stdin": subprocess.DEVNULL, "stdout": subprocess.PIPE, "stderr": subprocess.STDOUT, "errors": "replace"}
        with self.own:
            if self.is_ended:
                raise KeyboardInterrupt
            run = subprocess.Popen(told, cwd=folder, start_new_session=True, **how)
            self.running.add(run)
        try:
            said, _ = run.communicate(timeout=seconds)
        except subprocess.TimeoutExpired:
            self.kill(run)
            said = f"{run.communicate()[0]}\nthe check took more than {seconds} seconds"
        finally:
            with self.own:
                self.running.discard(run)
        if self.is_ended:
            raise KeyboardInterrupt
        return said, run.returncode

    def kill(self, run):
        with contextlib.suppress(ProcessLookupError):
            os.killpg(run.pid, signal.SIGKILL)

    def end(self):
        with self.own:
            self.is_ended = True
            for it in self.running:
                self.kill(it)


CHECKS = Checks()


def crates_below():
    """What each crate is built on, as crates.txt has it."""
    lines = (ROOT / "crates.txt").read_text(encoding="utf-8").splitlines()
    named = (it.partition(":") for it in lines if it and not it.startswith("#"))
    return {name.strip(): below.split() for name, _, below in named}


def all_below(crate):
    """The repository's crates that a crate is built on, directly or not."""
    below, found, left = crates_below(), [], [crate]
    while left:
        new = [it for it in below[left.pop(0)] if it in below and it not in found]
        found, left = found + new, left + new
    return found


@functools.cache
def kit():
    told = subprocess.run(["rt", "doc"], capture_output=True, text=True, check=True)
    return pathlib.Path(told.stdout.strip()).parent


def command(crate):
    """The prover's command for a crate of the repository."""
    below = crates_below()
    made = lambda it: CRATES / it / "out/rlib"
    root = "src/main.rt" if (CRATES / crate / "src/main.rt").is_file() else "src/lib.rt"
    told = [f"{kit()}/bin/rattle", "check", "--crate-name", crate, root]
    for it in ["std", *below[crate]]:
        told += ["--extern", f"{it}={made(it) if it in below else kit() / 'rlibs'}/{it}.rlib"]
    for it in [kit() / "rlibs", *map(made, all_below(crate))]:
        told += ["-L", f"dependency={it}"]
    told += ["--antt-project", f"{kit()}/rattle/logic/antt-project.json", "--logic-built", f"{kit()}/logic_built"]
    return [*told, "--links", f"{crate}=", "--jobs", "1"]


def link_or_copy(file, to):
    # the prover replaces such a file, and writes into none
    return os.link(file, to) if file.endswith(".oantt") else shutil.copy2(file, to)


def checked(mutants):
    """What the prover says of a crate with these mutants, over a copy of its kept proofs."""
    crate = mutants[0].crate
    out = CRATES / crate / "out"
    # (rt wants no source file below out, and links of files reach no other disk)
    with tempfile.TemporaryDirectory(prefix="mutants-") as room, tempfile.TemporaryDirectory(prefix="mutants-", dir=out) as kept:
        for part in PARTS:
            if (CRATES / crate / part).is_dir():
                shutil.copytree(CRATES / crate / part, f"{room}/{part}")
        for it in mutants:
            for file, lines in it.changes.items():
                path = pathlib.Path(room) / file
                text = enumerate(path.read_text(encoding="utf-8").splitlines(), 1)
                path.write_text("".join(f"{lines.get(at, line)}\n" for at, line in text), encoding="utf-8")
        shutil.copytree(out / "incremental", kept, copy_function=link_or_copy, dirs_exist_ok=True)
        said, _ = CHECKS.output([*command(crate), "--incremental", kept], room, MOST_SECONDS)
        return said


# ---- what rejects a mutant


def clause(goal):
    """The clause that a goal is about, or the goal's own name if the code owes it."""
    name = re.search(r"-clause-([\w-]+)$", goal or "")
    name = f" {name[1]}" if name else ""
    if not goal or goal.startswith("returns"):
        return f"ensures{name}"
    call, is_requires, _ = goal.partition("-requires")
    return f"requires{name} of {call}" if is_requires else goal


def rejection(mutant, said):
    """What rejects a mutant: of each function that it changes, a goal that isn't proved."""
    if not mutant.functions:
        return rejection_of_crate(mutant, said)
    by = [rejection_by(said, *it) for it in sorted(mutant.functions)]
    return ", ".join(by) if all(by) else None


def rejection_by(said, file, name, first, last):
    """The goal of a function that isn't proved, if there is one."""
    for at, line, goal in OPEN_IN_CODE.findall(said):
        if at == file and first <= int(line) <= last:
            return f"{name} · {clause(goal)}"
    home, _, own = name.rpartition("::")
    module = file.removeprefix("src/").removesuffix(".rt")
    for proof, goal, why in OPEN_IN_PROOF.findall(said):
        above, _, last_part = proof.rpartition("/")
        if is_proof_in(above, module, home) and last_part == own and not OF_NAMES.search(why):
            return f"{name} · {clause(goal)}"
    return None


def is_proof_in(folder, module, home):
    """Whether a folder of proofs is that of a module, or of a type in it, or of a type's trait. What the type
    is generic over can stand between the two names."""
    if not home:
        return folder == module or module in ("lib", "main") and not folder
    above, _, last = folder.rpartition("/")
    of, _, trait = home.partition(" as ")
    return above == module and last.startswith(of) and last.endswith(trait)


def rejection_of_crate(mutant, said):
    """What rejects a mutant that changes no function: the first goal of the crate that isn't proved."""
    errors = [*ANY_ERROR.finditer(said)]
    if any(it[1] in mutant.changes for it in errors):
        raise Fault("the prover can't read the changed text")
    for file, line, goal in OPEN_IN_CODE.findall(said):
        at = function_at(text_of(mutant.crate, file).splitlines(), int(line))
        return f"{at[0] if at else file} · {clause(goal)}"
    by_names = lambda it: bool(OF_NAMES.search(said[it.end() :].partition("\n")[0]))
    for it in sorted(errors, key=by_names):
        place = re.sub(r"^proofs/|(/(Answers|Invariants|Proof))?\.antt$", "", it[1])
        return f"{place} · {it[2] or 'its proof'}"
    return None


# ---- runs


def checks_of(mutants):
    """The mutants in lists that can be tried together."""
    checks = []
    for it in mutants:
        own = it.functions
        fits = (one for one in checks if own and all(other.functions and not own & other.functions for other in one))
        free = next(fits, None)
        if free is None:
            checks.append([it])
        else:
            free.append(it)
    return checks


def results(mutants):
    """Tries mutants together. Yields each with what rejects it, or None and the reason."""
    said = checked(mutants)
    if VERDICT.search(said):
        for it in mutants:
            try:
                by, why = rejection(it, said), NOT_REJECTED
            except Fault as fault:
                by, why = None, f"not tried: {fault}"
            if by or len(mutants) == 1:
                yield it, by, why
            else:
                # a proof that isn't read beside another's fault can keep the prover from the function's goals
                yield from results([it])
    elif len(mutants) == 1:
        last = said.strip().splitlines()[-1:] or ["the check printed nothing"]
        errors = [it for it in said.splitlines() if "error" in it]
        yield mutants[0], None, f"not tried: {(errors or last)[0][:300]}"
    else:
        yield from results(mutants[: len(mutants) // 2])
        yield from results(mutants[len(mutants) // 2 :])


class Tried:
    """What this clone has tried of a crate: what rejected each mutant, by a sum of all that it stood on."""

    def __init__(self, crate):
        self.crate, self.file = crate, TRIED / crate
        below = sorted(all_below(crate))
        self.on = sum_of([(kit() / "KIT-ID").read_text(encoding="utf-8"), *map(sum_of_texts, [crate, *below])])
        lines = self.file.read_text(encoding="utf-8").splitlines() if self.file.is_file() else []
        self.known = dict(it.split("\t") for it in lines)

    def key(self, mutant):
        return sum_of([self.on, mutant.sum()])

    def by(self, mutant):
        return self.known.get(self.key(mutant))

    def keep(self, mutant, by):
        """Writes what rejected a mutant, or that nothing did, here and beside the mutant."""
        with alone():
            if by and self.by(mutant) != by:
                self.known[self.key(mutant)] = by
                with open(self.file, "a", encoding="utf-8") as file:
                    file.write(f"{self.key(mutant)}\t{by}\n")
            mutants = read_mutants(self.crate)
            own = next((it for it in mutants if it.sum() == mutant.sum()), None)
            if own and own.rejected_by != (by or ""):
                own.rejected_by = by or ""
                write_mutants(self.crate, mutants)


def try_crate(crate):
    """Tries the mutants of a crate, and returns how many there are and how many were rejected."""
    mutants, tried = read_mutants(crate), Tried(crate)
    before, rejected = sum_of_crate(crate, mutants), 0
    left = [it for it in mutants if not tried.by(it)]
    for it in mutants:
        if it not in left:
            tried.keep(it, tried.by(it))
            rejected += 1
    if left:
        said, status = CHECKS.output(["rt", "check", "--jobs", "1"], CRATES / crate)
        if status:
            print(*(it for it in said.splitlines() if not OF_PROVED.search(it)), sep="\n")
            print(f"{crate}: it isn't proved as it is, so {len(left)} mutants weren't tried", flush=True)
            return len(mutants), rejected
    is_passed = False
    for it, by, why in (it for check in checks_of(left) for it in results(check)):
        print(f"{it}: {f'rejected by {by}' if by else why}", flush=True)
        if by or why == NOT_REJECTED:
            tried.keep(it, by)
        rejected, is_passed = rejected + bool(by), is_passed or why == NOT_REJECTED and not by
    with alone():
        if is_passed:
            keep_sum(crate, None)
        elif rejected == len(mutants) and before == sum_of_crate(crate, read_mutants(crate)):
            keep_sum(crate, before)
    return len(mutants), rejected


def try_all(crates, jobs):
    """Tries the mutants of these crates, several crates side by side, and returns whether all were rejected."""
    rejected = total = failed = 0
    start = time.monotonic()
    with concurrent.futures.ThreadPoolExecutor(jobs) as pool:
        runs = {pool.submit(try_crate, it): it for it in sorted(crates, key=lambda it: len(all_below(it)))}
        try:
            for run in concurrent.futures.as_completed(runs):
                try:
                    of_crate, by = run.result()
                except Exception as error:  # one crate's fault leaves the others' results
                    print(f"{runs[run]}: not tried: {type(error).__name__}: {error}", flush=True)
                    failed += 1
                    continue
                print(f"{runs[run]}: {by} of {of_crate} mutants rejected; {minutes(start)} so far", flush=True)
                rejected, total = rejected + by, total + of_crate
        except KeyboardInterrupt:
            CHECKS.end()
            pool.shutdown(cancel_futures=True)
            sys.exit("interrupted; what was tried is kept")
    print(f"{rejected} of {total} mutants rejected, each by its own function, in {minutes(start)}")
    return rejected == total and not failed


def minutes(start):
    return f"{(time.monotonic() - start) / 60:.1f} minutes"


def report_sums():
    """Prints the mutants that don't apply and the crates whose sum isn't current, and returns whether all is well."""
    crates = crates_with_mutants()
    faults = [fault for it in crates for fault in faults_of(it)]
    if not faults:
        told = "not all mutants were tried on what is there: make mutants"
        faults = [f"{it}: {told} CRATE={it}" for it in crates if not is_current(it)]
        lacking = {it: len(unrecorded(it)) for it in crates if is_current(it)}
        notes = [f"{it}: note: no run has written what rejects {count} mutants" for it, count in lacking.items() if count]
        print(*notes, sep="\n", end="\n" if notes else "")
    print(*faults, sep="\n", end="\n" if faults else "")
    return not faults


def interrupt(*_):
    raise KeyboardInterrupt


def main():
    words = argparse.ArgumentParser(description="Tries mutants, which the prover must reject.")
    words.add_argument("--sums", action="store_true", help="try nothing, and compare the sums of edits/refused.txt")
    words.add_argument("--jobs", type=int, default=len(os.sched_getaffinity(0)), help="how many crates to try side by side")
    words.add_argument("names", nargs="*", metavar="NAME", help="a crate; all if none is named")
    words = words.parse_args()
    lacking = [it for it in words.names if it not in crates_with_mutants()]
    if lacking:
        sys.exit(f"edits/{lacking[0]}.edit isn't there")
    signal.signal(signal.SIGTERM, interrupt)
    is_well = report_sums() if words.sums else try_all(words.names or crates_with_mutants(), words.jobs)
    return 0 if is_well else 1


if __name__ == "__main__":
    sys.exit(main())

"""The files of mutants, edits/NAME.edit, and the sums of edits/refused.txt; tools/mutants.py says what they are."""
import contextlib
import dataclasses
import fcntl
import functools
import hashlib
import os
import pathlib
import re

ROOT = pathlib.Path(__file__).resolve().parent.parent
EDITS, CRATES, TRIED = ROOT / "edits", ROOT / "crates", ROOT / "out/mutants"
SUMS = EDITS / "refused.txt"
HEAD_OF_SUMS = "# a sum over each crate's texts and mutants, all of which the prover rejected; tools/mutants.py writes it"
PARTS = ("src", "specs", "proofs")

# A literal, which stays, or what is between words: white space and comments
IN_CODE = re.compile(r"""r(#*)".*?"\1|"(?:\\.|[^"\\])*"|'(?:\\.[^']*|[^\\'\n])'|(?P<gap>(?:\s|//[^\n]*|/\*.*?\*/)+)""", re.S)
# The last `;` of a record in a clause
END_OF_RECORD = re.compile(r"(\brecord \{[^{}]*); \}")
IN_LOGIC = re.compile(r"""(?P<comment>(?<![^\s(){}.;,@"«»])--[^\n]*|{-.*?-})|"(?:\\.|[^"\\\n])*\"""", re.S)
# Derived traits, which no mutant changes
DERIVED = re.compile(r"#\[derive\([^)]*\)\] ")
FUNCTION = re.compile(r"^( *)(?:pub(?:\([a-z]+\))? )?(?:const )?fn (\w+)")
HOME = re.compile(r"(?:pub(?:\([a-z]+\))? )?(?:unsafe )?(?:impl|trait) (?:(?P<of>[\w:]+) for )?(?P<type>[\w:&]+)")


class Fault(Exception):
    """Why a mutant can't be tried."""


@dataclasses.dataclass
class Mutant:
    """A change of a crate: in these files, each old text replaced by the new one."""

    crate: str
    name: str
    pairs: list = dataclasses.field(default_factory=list)
    rejected_by: str = ""

    def __str__(self):
        return f"{self.crate} {self.name}"

    def texts(self):
        """The text of each file that it changes."""
        made = {}
        for file, old, new in self.pairs:
            text = made.get(file) or text_of(self.crate, file)
            if text.count(old) != 1:
                raise Fault(f"an old text is in {file} {text.count(old)} times, and not once: {old}")
            made[file] = text.replace(old, new)
        if not made:
            raise Fault("it has no old: and new:")
        return made

    @functools.cached_property
    def changes(self):
        """Of each file that it changes, the lines: their numbers, each with the new line."""
        found = {}
        for file, text in self.texts().items():
            lines = enumerate(zip(text_of(self.crate, file).splitlines(), text.splitlines()), 1)
            found[file] = {at: now for at, (was, now) in lines if was != now}
        return found

    @functools.cached_property
    def functions(self):
        """The functions that it changes, each as its file, name, first and last line; none if it changes
        a line outside of every function."""
        found = set()
        for file, lines in self.changes.items():
            was = text_of(self.crate, file).splitlines()
            found |= {(file, *(function_at(was, at) or [None])) for at in lines}
        return frozenset() if any(not it[0].startswith("src/") or not it[1] for it in found) else frozenset(found)

    def sum(self):
        return sum_of([self.crate, self.name, *(text for pair in self.pairs for text in pair)])


def text_of(crate, file):
    try:
        return (CRATES / crate / file).read_text(encoding="utf-8")
    except OSError as error:
        raise Fault(f"{file}: {error.strerror}") from error


def function_at(lines, number):
    """The function that a line is in: its name, its first line (with what is before it) and its last."""
    for first in range(number, 0, -1):
        head = FUNCTION.match(lines[first - 1])
        if head:
            end, home = head[1] + "}", home_of(lines[:first]) if head[1] else ""
            last = next((at for at in range(first, len(lines) + 1) if lines[at - 1] == end), 0)
            while first > 1 and lines[first - 2].strip() and lines[first - 2][-1] not in "{};":
                first -= 1
            return (f"{home}{head[2]}", first, last) if last >= number else None
    return None


def home_of(lines):
    """The type, and the trait of an impl of one, that a method at the end of these lines belongs to: `Type::` or
    `Type as Trait::`."""
    for line in reversed(lines):
        if not line[:1].isspace():
            while line != (line := re.sub(r"<[^<>]*>", "", line)):
                pass
            found = HOME.match(line)
            if found:
                return f"{found['type']}{' as ' + found['of'].split('::')[-1] if found['of'] else ''}::"
    return ""


# ---- the files of mutants


def crates_with_mutants():
    return sorted(it.stem for it in EDITS.glob("*.edit"))


def read_mutants(crate):
    """The mutants of a crate, as its file has them."""
    found, file, old = [], None, None
    for number, line in enumerate((EDITS / f"{crate}.edit").read_text(encoding="utf-8").splitlines(), 1):
        word, _, text = line.partition(": ")
        if word == "mutant":
            found.append(Mutant(crate, text))
            file = old = None
        elif word == "rejected by" and found:
            found[-1].rejected_by = text
        elif word == "file" and found:
            file = text
        elif word == "old" and file:
            old = text
        elif word.removesuffix(":") == "new" and old:
            found[-1].pairs.append((file, old, text))
            old = None
        elif line:
            raise Fault(f"edits/{crate}.edit:{number}: this line has no place here: {line}")
    twice = next((it.name for at, it in enumerate(found) if it.name in [one.name for one in found[:at]]), None)
    if twice:
        raise Fault(f"edits/{crate}.edit: two mutants are named {twice}")
    return found


def write_mutants(crate, mutants):
    write(EDITS / f"{crate}.edit", "\n".join(map(text_of_mutant, mutants)))


def text_of_mutant(mutant):
    lines, at = [f"mutant: {mutant.name}"], None
    if mutant.rejected_by:
        lines.append(f"rejected by: {mutant.rejected_by}")
    for file, old, new in mutant.pairs:
        lines += [f"file: {file}"] if file != at else []
        lines += [f"old: {old}", f"new: {new}" if new else "new:"]
        at = file
    return "".join(f"{it}\n" for it in lines)


def write(path, text):
    """Writes a file by renaming, so that who is interrupted leaves the old or the new one."""
    path.parent.mkdir(parents=True, exist_ok=True)
    new = path.with_name(f".{path.name}.{os.getpid()}")
    new.write_text(text, encoding="utf-8")
    new.replace(path)


@contextlib.contextmanager
def alone():
    """Keeps other runs from the files of results meanwhile."""
    TRIED.mkdir(parents=True, exist_ok=True)
    with open(TRIED / "lock", "w", encoding="utf-8") as lock:
        fcntl.flock(lock, fcntl.LOCK_EX)
        yield


# ---- sums


def sum_of(texts):
    told = hashlib.sha256()
    for it in texts:
        told.update(f"{len(it)} {it}\n".encode())
    return told.hexdigest()[:32]


def code_in(text):
    """A text of Rattle without its comments, its layout and its derived traits."""
    text = IN_CODE.sub(lambda found: " " if found["gap"] else found[0], text)
    return END_OF_RECORD.sub(r"\1 }", DERIVED.sub("", text))


def logic_in(text):
    """A text of definitions and proofs without its comments and its layout."""
    text = IN_LOGIC.sub(lambda found: "" if found["comment"] else found[0], text)
    return " ".join(text.split()).replace("; }", " }")


def sum_of_texts(crate):
    """A sum over the texts of a crate, without comments, layout and derived traits."""
    files = [it for part in PARTS for it in sorted((CRATES / crate / part).rglob("*")) if it.is_file()]
    texts = [(code_in if it.suffix == ".rt" else logic_in)(it.read_text(encoding="utf-8")) for it in files]
    names = [str(it.relative_to(CRATES)) for it in files]
    return sum_of(it for pair in zip(names, texts) for it in pair)


def sum_of_crate(crate, mutants):
    """A sum over the texts of a crate and its mutants, whatever rejected them."""
    return sum_of([sum_of_texts(crate), *sorted(it.sum() for it in mutants)])


def kept_sums():
    """The sums of the crates whose mutants were all rejected."""
    lines = SUMS.read_text(encoding="utf-8").splitlines() if SUMS.is_file() else []
    return dict(it.split() for it in lines if it and not it.startswith("#"))


def keep_sum(crate, told):
    """Writes a crate's sum, or that it has none."""
    sums = {it: told for it, told in (kept_sums() | {crate: told}).items() if told and it in crates_with_mutants()}
    write(SUMS, "".join(f"{it}\n" for it in [HEAD_OF_SUMS, *(f"{it} {sums[it]}" for it in sorted(sums))]))


def faults_of(crate):
    """The mutants of a crate that don't apply, each with the reason."""
    try:
        mutants = read_mutants(crate)
    except Fault as fault:
        return [str(fault)]
    found = []
    for it in mutants:
        try:
            it.texts()
        except Fault as fault:
            found.append(f"{it}: {fault}")
    return found


def is_current(crate):
    """Whether the mutants of a crate were all rejected with the texts that are there."""
    return kept_sums().get(crate) == sum_of_crate(crate, read_mutants(crate))


def unrecorded(crate):
    """The mutants of a crate of which no run has written what rejects them."""
    return [it.name for it in read_mutants(crate) if not it.rejected_by]

"""No fault is made up: each fault of memory, of a store, of a stream, of a file or of the output comes from a call that
had it.

No contract can say when memory, a disk or a socket fails, so the prover accepts a body that returns such a fault
though nothing failed. This test reads the sources instead. A fault comes

- by `?` from the call that had it;
- in an arm whose pattern is another type's fault of that sort (`StoreFault::Memory => ChangeFault::Memory`);
- out of memory also by a `From` of the allocator's errors;
- at a place of made_up_faults.txt, which has a reason for each.

If a place, its condition or its statement changes, it is another place, and somebody looks at it again.
"""
import collections
import functools
import pathlib
import re
import unittest

from rattle_text import Source

TESTS = pathlib.Path(__file__).resolve().parent
LIST = TESTS / "made_up_faults.txt"
CRATES = TESTS.parent / "crates"

# What a `From` of the allocator's errors gives: a variant of a known name, or one that holds such a fault
KNOWN_MEMORY = re.compile(r"^(?:\w+::\w+\()?\w+::(?:Memory|OutOfMemory)\)?$")

# The greatest size that a constant may give an allocation
MOST_ROOM = 65_536
NUMBER = re.compile(r"\bconst ([A-Z][A-Z0-9_]*): \w+ = ([0-9_]+|[^;]*);")


def small_constants():
    """The names of the crates' constants that are numbers of at most MOST_ROOM in each place that has the name."""
    numbers = collections.defaultdict(list)
    for path in CRATES.glob("*/src/**/*.rt"):
        for name, value in NUMBER.findall(path.read_text(encoding="utf-8")):
            numbers[name].append(int(value) if re.fullmatch("[0-9_]+", value) else MOST_ROOM + 1)
    return sorted(name for name, values in numbers.items() if max(values) <= MOST_ROOM)


# A size that is no more than what is there: a small number, a small constant or a length
CONSTANT = rf"(?:{'|'.join(small_constants())})"
SIZE = rf"(?:\d{{1,4}}|{CONSTANT}|(?:[\w.]|\(\))+\.len\(\)(?:\.(?:min|saturating_add)\({CONSTANT}\))?)"
# One element of a list, or what it is made of
ELEMENT = r"(?:[^\[\];]|\[[^\[\]]*\])*"

# How the code writes each sort of fault
SORTS = {
    "memory": re.compile(r"\b(?:Memory|OutOfMemory|AllocError|AllocFailed)\b"),
    "store": re.compile(
        r"\b(?:\w*Fault|Self)::Store\b(?!\()|\bRunFault::Journal\b|\bError::[A-Z]\w*"
        r"|\b[a-z]\w*\((?:[^()]*, )?\w+Fault::(?:Damaged|Newer)\b"
    ),
    "stream": re.compile(
        r"\b(?:ReadFailed|WriteFailed|EndedEarly|TurnsExhausted)\b"
        r"|\bError::(?:from|new|other|from_raw_os_error)\b(?!\(ErrorKind::OutOfMemory)|\bErrorKind::\w+\.into\b"
        r"|\bErr\((?:io::)?ErrorKind::\w+\)\?"
    ),
    # a file, the output, or all of a connection, as a command reports it
    "host": re.compile(
        r"\bCommandFault::(?:File|Output|Connection|Unread|Unopened)\b|\b(?:WriteFault|ShowFault)::Output\b"
        r"|\bRunFault::(?:Untold|Connection)\b|\bConnectionFault\b"
    ),
    # room for more than a SIZE: a call for too much fails, though memory is there
    "room": re.compile(
        rf"\b(?:with_capacity|reserve|reserve_exact|resize|resize_with)\((?!(?:(?:self\.)?alloc, )?{SIZE}[,)])"
        rf"|\bvec!\[in {ELEMENT};{ELEMENT};(?! {SIZE}\])|(?<!\bfn )\b(?:extend|repeat)\("
    ),
}
ANY = re.compile("|".join(sort.pattern for sort in SORTS.values()))
# What is between an arm's arrow, or the beginning of a body, and a fault that is returned as it is
WRAPPED = re.compile(r"(?:return )?(?:[\w:]+\(|\()*(?:[\w:]+::)?")
# The allocator's errors, which a From may make to out of memory
OF_ALLOCATOR = re.compile(r"\bFrom<Alloc(?:Error|Failed<\w+>)> for\b")

ADVICE = f"""

If the fault comes from a call, let it come by `?`, or in an arm whose pattern is another type's fault of its sort.
Otherwise say in {LIST.name} why it isn't made up, above the place as it is shown here:

"""
STALE = f"""

{LIST.name} has places where the code makes no fault (any more). Remove them, or mend them if the code moved:

"""

source_of = functools.cache(Source)


@functools.cache
class Sort:
    """A sort of fault, and functions that return nothing else."""

    def __init__(self, name, makers=()):
        self.is_memory, self.fault = name == "memory", SORTS[name]
        calls = rf"|(?<!\bfn )\b(?:{'|'.join(makers)})\b" if makers else ""
        self.written = re.compile(self.fault.pattern + calls)

    def is_another(self, pattern):
        """Whether all that a pattern matches is a fault of this sort."""
        pattern, _, guard = pattern.partition(" if ")
        if self.is_memory and re.search(r"== ErrorKind::OutOfMemory\s*$", guard):
            return True
        return all(self.fault.search(each) for each in pattern.split("|"))


def is_compared(source, found):
    """Whether a fault is part of a pattern, or follows `==`."""
    before, after = source.part_before(found.start()), source.part_after(found.end())
    return "=>" in after or re.search(r"\blet\b[^=]*$|[!=]= [\w:]*$|\bmatches!\([^;]*$", before)


def is_passed_on(source, found, sort):
    """Whether a fault is what an arm makes of another type's fault of its sort, or a From of the allocator's."""
    block, (pattern, arrow, rest) = source.block_at(found.start()), source.part_before(found.start()).rpartition("=>")
    if not WRAPPED.fullmatch(rest.strip()):
        return False
    if arrow or block.head.endswith("=>"):
        return sort.is_another(pattern or block.head.removesuffix("=>"))
    home = block.within("impl")
    return sort.is_memory and home and OF_ALLOCATOR.search(home.head) and block.head.startswith("fn from(")


def is_declared(source, found):
    """Whether a fault outside of functions is the name of a type or of a variant. An import may give it no other
    name, and may not import the variants of a type."""
    part, block = source.part_before(found.start()), source.block_at(found.start())
    if re.search(r"\buse\b", part):
        return "Fault::" not in part and not re.match(r"\s*as\b", source.part_after(found.end()))
    return re.search(r"\b(?:fn|impl|struct|type)\b", part) or (block and block.within("enum"))


@functools.cache
def made_by_hand(source, sort):
    """Where a file makes a fault of a sort by hand."""
    places = []
    for found in sort.written.finditer(source.code):
        if source.function_at(found.start()):
            comes = is_compared(source, found) or is_passed_on(source, found, sort)
        else:
            comes = is_declared(source, found)
        if not comes:
            places.append(found.start())
    return places


def makers_in(source, sort):
    """The functions of a file that do nothing but make a fault, each with whether other crates can call it."""
    for start in made_by_hand(source, sort):
        block = source.block_at(start)
        if block and block.is_body() and not re.search(r"[;{.?]", source.code[block.start : block.end]):
            yield source.function_at(start).rpartition("::")[2], block.head.startswith("pub fn")


@functools.cache
def public_makers(name):
    """The functions of all crates that make a fault of a sort and that others can call, each after its crate."""
    return {
        (crate, it)
        for crate, files in crates().items()
        for text in files.values() if ANY.search(text)
        for it, is_public in makers_in(source_of(text), Sort(name)) if is_public
    }


def imported(text, name):
    """The functions of other crates that make a fault of a sort and that a file names by their crate."""
    return {
        it for home, it in public_makers(name)
        if f"{home}::" in text and re.search(rf"\b{home}::(?:\*|(?:{{[^}}]*\b)?{it}\b)", text)
    }


def place(file, source, start):
    """A place as the list shows it."""
    lines = [source.condition_at(start), source.part_at(start)]
    return "\n    ".join([f"{file} {source.function_at(start)}", *filter(None, lines)])


def places_in(files):
    """The places where the files of a crate, given with their texts, make faults by hand; each with its count."""
    imports = {file: {name: imported(text, name) for name in SORTS} for file, text in files.items()}
    sources = {
        file: source_of(text) for file, text in files.items() if ANY.search(text) or any(imports[file].values())
    }
    places = collections.Counter()
    for name in SORTS:
        makers = {it for source in sources.values() for it, _ in makers_in(source, Sort(name))}
        for file, source in sources.items():
            sort = Sort(name, tuple(sorted(makers | imports[file][name])))
            places.update(place(file, source, start) for start in made_by_hand(source, sort))
    return places


@functools.cache
def crates():
    """The crates of the program: for each the texts of its files."""
    found = collections.defaultdict(dict)
    for path in sorted(CRATES.glob("*/src/**/*.rt")):
        file = path.relative_to(CRATES)
        found[file.parts[0]][str(file)] = path.read_text(encoding="utf-8")
    return found


def listed():
    """The places of the list, each with its count."""
    lines = [line for line in LIST.read_text(encoding="utf-8").split("\n") if line and not line.startswith("#")]
    return collections.Counter(re.split(r"\n(?! )", "\n".join(lines)))


def shown(places):
    return "\n".join(sorted(places.elements()))


class MadeUpFaults(unittest.TestCase):
    longMessage = False

    def test_each_fault_comes_from_a_call_or_is_listed(self):
        found = collections.Counter()
        for files in crates().values():
            found.update(places_in(files))
        self.assertFalse(found - listed(), ADVICE + shown(found - listed()))
        self.assertFalse(listed() - found, STALE + shown(listed() - found))

    def test_the_allocators_errors_become_faults_of_known_names(self):
        """So no other variant means that memory is out."""
        count = 0
        for file, text in (it for files in crates().values() for it in files.items()):
            source = source_of(text) if OF_ALLOCATOR.search(text) else None
            for block in source.blocks if source else ():
                home = block.parent and block.parent.within("impl")
                if home and OF_ALLOCATOR.search(home.head) and block.head.startswith("fn from("):
                    body = source.code[block.start : block.end].strip()
                    self.assertRegex(body, KNOWN_MEMORY, f"{file}: a name for {home.head}")
                    count += 1
        self.assertGreater(count, 0)


# Wrong bodies that the prover accepts: a file, a function, a line of it or None, and the line in its place, or the
# line that the body begins with
WRONG = [
    ("world_sim/src/runs.rt", "run", None, "return Err(WorldFault::Memory);"),
    ("world_sim/src/settling.rt", "settle", None, "if names.len() > 4 { return Err(WorldFault::Memory); }"),
    ("connector_core/src/asking.rt", "Connector::ask", None, "return Err(AskFault::Memory);"),
    ("connector_core/src/learning.rt", "judge", None, "return Err(LearnFault::Memory);"),
    ("scim_client/src/exchange.rt", "ScimService::exchange", None,
     "if let Request::Replace { .. } = request { return Err(ExchangeFault::NoAnswer(AnswerFault::OutOfMemory)); }"),
    ("source_csv/src/files.rt", "rest_of", "for _ in 0..u64::MAX {", "for _ in 0..150_000 {"),
    ("commands/src/images.rt", "print_images", "for _ in 0..u64::MAX {", "for _ in 0..150_000 {"),
    ("world_sim/src/schedules.rt", "read_schedule", None, "if text.len() > 4_096 { return Err(AllocError)?; }"),
    ("provisioning/src/tracks.rt", "hear", None,
     "return (Err(ExchangeFault::ReadFailed), Recording::new(reader));"),
    ("journal_store/src/journal.rt", "SqlJournal::reopen", None, "return Err(refusal(&mut self.faults));"),
    ("journal_store/src/journal.rt", "SqlJournal::put_row", None, "return Err(refusal(&mut self.faults));"),
    ("journal_store/src/journal.rt", "SqlJournal::put_learnt", "if !self.is_usable {", "if true {"),
    ("journal_store/src/opening.rt", "open_older", None, "return Err(JournalOpenFault::Store);"),
    ("mapping/src/lines.rt", "WriteFault::from", "if error.kind() == ErrorKind::OutOfMemory {",
     "if error.kind() != ErrorKind::BrokenPipe {"),
    ("world_sim/src/schedules.rt", "lines_of", None, "let _: Vec<u8> = Vec::with_capacity(alloc, usize::MAX)?;"),
    ("provider_core/src/provider.rt", "ProviderFault::from", "StoreFault::Memory => ProviderFault::Memory,",
     "_ => ProviderFault::Memory,"),
    ("connector_core/src/asking.rt", "Connector::ask", None,
     "if let Row::User(user) = &known.wanted && !user.is_active() && user.revision().number() / 100_000_000 == 17"
     " { let _room = vec![in self.alloc; 0u8; 1 << 60]?; }"),
    ("commands/src/pushing.rt", "push_over", None,
     "if let Some(groups) = &sources.groups && groups.records().len() > 1_000 { return Err(CommandFault::File); }"),
    ("world_sim/src/schedules.rt", "lines_of", None, "let mut room: Vec<u8> = Vec::new(alloc); room.resize(1 << 60, 0)?;"),
    ("world_sim/src/schedules.rt", "lines_of", None, "let mut room: Vec<u8> = Vec::new(alloc); room.reserve_exact(HUGE)?;"),
    ("world_sim/src/schedules.rt", "lines_of", None, "room.extend(iter::repeat(0).take(1 << 60))?;"),
    ("http_text/src/sending.rt", "send", None, "if text.len() > 60_000 { Err(ErrorKind::TimedOut)?; }"),
    ("commands/src/output.rt", "standard_output", None, "return Err(CommandFault::Output(io::Error::from_raw_os_error(28)));"),
]


class WrongBodies(unittest.TestCase):
    def test_each_is_found(self):
        for file, function, old, new in WRONG:
            with self.subTest(file=file, function=function, new=new):
                crate = crates()[file.partition("/")[0]]
                changed = {**crate, file: with_line(crate[file], function, old, new)}
                more = places_in(changed) - places_in(crate)
                self.assertEqual({it.split("\n")[0] for it in more}, {f"{file} {function}"})


def with_line(text, function, old, new):
    """A file with another line in a function; without an old line, at the beginning of its body."""
    source = source_of(text)
    bodies = [block for block in source.blocks if block.is_body() and source.function_at(block.start) == function]
    if old is None:
        return text[: bodies[0].start] + f"\n{new}\n" + text[bodies[0].start :]
    start = min(at for at in (text.find(old, body.start, body.end) for body in bodies) if at >= 0)
    return text[:start] + new + text[start + len(old) :]


if __name__ == "__main__":
    unittest.main()

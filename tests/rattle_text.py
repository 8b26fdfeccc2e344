"""Rattle sources as text: the code of a file without its comments, strings and contracts, and its blocks."""
import bisect
import re

# A comment, a string or a character
NO_CODE = re.compile(
    r"""//[^\n]*|/\*.*?\*/|\br(#*)".*?"\1|"(?:\\.|[^"\\])*"|b?'(?:\\[^']*|[^'\\])'""", re.DOTALL
)
# The head of a clause or of a ghost item. A ghost import ends at its semicolon
CLAUSE = re.compile(r"\b(?:requires|ensures|invariant|decreases)\b[^{};]*\{|\bghost\b[^{;]*[{;]")
# Braces around nothing but names, as those of a pattern
NAMES = re.compile(r"\{(\s*(?:\w+\s*,\s*)*(?:\w+|\.\.)\s*)\}")
# What divides code. The arguments of a call's type don't
MARK = re.compile(r"::<(?:[^<>;{}]|<[^<>;{}]*>)*>|[{}()\[\];,]")


def blank(text):
    """As much space as this text takes, on as many lines."""
    return re.sub(r"[^\n]", " ", text)


def end_of_braces(text, place):
    """The place behind the brace that closes the one before this place."""
    depth = 1
    for mark in re.compile(r"[{}]").finditer(text, place):
        depth += 1 if mark[0] == "{" else -1
        if not depth:
            return mark.end()
    raise ValueError("a brace isn't closed")


def code_of(text):
    """The text with nothing but code: what else there is has become space."""
    text = NO_CODE.sub(lambda found: blank(found[0]), text)
    place = 0
    while clause := CLAUSE.search(text, place):
        place = end_of_braces(text, clause.end()) if clause[0].endswith("{") else clause.end()
        text = text[: clause.start()] + blank(text[clause.start() : place]) + text[place:]
    return NAMES.sub(r"(\1)", text)


class Block:
    """What is between two braces, and the code before them: its head."""

    def __init__(self, head, start, parent):
        self.head, self.start, self.end, self.parent = " ".join(head.split()), start, None, parent
        self.inner = []
        if parent:
            parent.inner.append(self)

    def is_body(self):
        return re.search(r"\bfn\b", self.head) is not None

    def last_before(self, place):
        """The last block in this one that ends before a place."""
        return next((block for block in reversed(self.inner) if block.end < place), None)

    def within(self, *words):
        """The innermost block around here whose head has one of these words."""
        block = self
        while block and not re.search(rf"\b(?:{'|'.join(words)})\b", block.head):
            block = block.parent
        return block


def is_comma_of_body(kind, block):
    return kind == "," and block and block.within("fn", "enum")


class Source:
    """A file of Rattle. Its code is divided into parts, by braces, semicolons, and the commas of a body."""

    def __init__(self, text):
        self.code = code_of(text)
        self.parts, self.blocks = [0], []
        block, depths = None, [0]
        for mark in MARK.finditer(self.code):
            kind, place = mark[0], mark.end()
            if kind in "([":
                depths[-1] += 1
            elif kind in ")]":
                depths[-1] -= 1
            elif kind == "{":
                block = Block(self.code[self.parts[-1] : mark.start()], place, block)
                self.blocks.append(block)
                depths.append(0)
            elif kind == "}":
                block.end, block = mark.start(), block.parent
                depths.pop()
            if kind in "{}" or (not depths[-1] and (kind == ";" or is_comma_of_body(kind, block))):
                self.parts.append(place)
        self.starts = [block.start for block in self.blocks]

    def block_at(self, place):
        """The innermost block around a place."""
        index = bisect.bisect_right(self.starts, place) - 1
        block = self.blocks[index] if index >= 0 else None
        while block and block.end <= place:
            block = block.parent
        return block

    def part_before(self, place):
        """The code of the place's part up to the place."""
        return self.code[self.parts[bisect.bisect_right(self.parts, place) - 1] : place]

    def part_after(self, place):
        """The code of the place's part from the place on, with the mark that ends it."""
        index = bisect.bisect_right(self.parts, place)
        return self.code[place : self.parts[index] if index < len(self.parts) else None]

    def part_at(self, place):
        """The code of the place's part, on one line and without the mark that ends it."""
        return " ".join((self.part_before(place) + self.part_after(place))[:-1].split())

    def function_at(self, place):
        """The name of the function around a place, after that of its type."""
        block = self.block_at(place)
        function = block and block.within("fn")
        if not function:
            return ""
        name = re.search(r"\bfn (\w+)", function.head)[1]
        home = function.parent and function.parent.within("impl", "trait")
        return f"{type_of(home.head)}::{name}" if home else name

    def condition_at(self, place):
        """The head of the innermost block around a place of a function; before an `else` the head of the block
        that it is of. If the place is in the body itself: the head of the last block of the body before it, after
        the word `after`."""
        block = self.block_at(place)
        if not block or block.is_body():
            last = block and block.last_before(place)
            return f"after {last.head}" if last else ""
        last = block.parent.last_before(block.start) if block.head == "else" else None
        return f"{last.head} else" if last else block.head


def type_of(head):
    """The type whose functions follow the head of an `impl`, or the trait's name."""
    head = re.sub(r"^(?:pub\s+)?(?:impl|trait)\b\s*(?:<(?:[^<>]|<[^<>]*>)*>)?", "", head).strip()
    return re.match(r"\W*([\w:]+)", head.rpartition(" for ")[2])[1]

"""crates.txt: the crates of the connector stand on none of the provider's, and the other way round. The picture of
docs/DEVELOPING.md shows the crates as they are."""
import pathlib
import re
import unittest

TOP = pathlib.Path(__file__).resolve().parent.parent
CRATES, PAGE = TOP / "crates.txt", TOP / "docs/DEVELOPING.md"


def groups():
    """The crates of each group, by the first words of its heading, and what each crate stands on."""
    rooms, below, room = {}, {}, None
    for line in CRATES.read_text(encoding="utf-8").splitlines():
        if line.startswith("#"):
            room = line[1:].split(",")[0].strip()
        elif ":" in line:
            name, stands_on = line.split(":")
            rooms.setdefault(room, set()).add(name)
            below[name] = set(stands_on.split())
    return rooms, below


def reached(name, below):
    """All that a crate stands on, directly or not."""
    found, rest = set(), [name]
    while rest:
        for it in below.get(rest.pop(), ()):
            if it not in found:
                found.add(it)
                rest.append(it)
    return found


def arrows(name, below):
    """The crates that a crate uses, without the ones that follow from others."""
    ours = below[name] & set(below)
    return sorted(ours - {it for each in ours for it in reached(each, below)})


def picture():
    """The picture of the crates: a box for each group, and an arrow from a crate to each crate that it uses."""
    rooms, below = groups()
    lines = ["flowchart TD"]
    for number, (room, names) in enumerate(rooms.items()):
        lines += [f'    subgraph room{number}["{room}"]', *(f"        {name}" for name in sorted(names)), "    end"]
    for name in below:
        if lower := arrows(name, below):
            lines.append(f"    {name} --> {' & '.join(lower)}")
    return "\n".join(lines) + "\n"


class RoomsTest(unittest.TestCase):
    def test_the_picture_is_that_of_crates_txt(self):
        shown = re.findall(r"^```mermaid\n(.*?)^```$", PAGE.read_text(encoding="utf-8"), re.M | re.S)
        self.assertEqual(shown, [picture()], f"the picture of DEVELOPING.md has to be\n{picture()}")

    def test_connector_and_provider_are_apart(self):
        rooms, below = groups()
        connector, provider = rooms["the connector"], rooms["the provider"]
        self.assertIn("provisioning", connector)
        self.assertIn("connection", provider)
        for these, others in ((connector, provider), (provider, connector)):
            for name in sorted(these):
                self.assertEqual(set(), reached(name, below) & others, name)


if __name__ == "__main__":
    unittest.main()

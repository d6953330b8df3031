"""tools/check-rooms: the page of the crates is made of crates.txt, and sections that aren't those of crates.txt are told of."""
import pathlib
import runpy
import unittest

TOP = pathlib.Path(__file__).resolve().parent.parent.parent
LIST = """# The crates.

# Packets
## docs/proof/rooms/packets.md
## Bytes and what they say.
#: LSAs
lsa: words
#: packets
packet may_wait=1: lsa

# Tests
#: of `flood`
core_tests: flood
"""
PAGE = """# The crates

What stands here stays.

## Packets

What is proved: [docs/proof/rooms/packets.md](../docs/proof/rooms/packets.md).

Bytes and what they say.

| Crate | What it is for |
|---|---|
| `lsa` | LSAs |
| `packet` | packets |

## Tests

| Crate | What it is for |
|---|---|
| `core_tests` | of `flood` |
"""


TOOL = runpy.run_path(str(TOP / "tools/check-rooms"), run_name="check_rooms")


class TestCheckRooms(unittest.TestCase):
    def faults(self, text: str = LIST, **pages: str) -> list[str]:
        return TOOL["proof_faults"](TOOL["rooms_of"](text), {f"docs/proof/rooms/{name}.md": it for name, it in pages.items()})

    def test_the_page_is_made_of_the_list(self) -> None:
        rooms = TOOL["rooms_of"](LIST)
        self.assertEqual(TOOL["page_of"]("# The crates\n\nWhat stands here stays.\n\n## Old\n\n| `old` | gone |\n", rooms), PAGE)
        self.assertEqual(TOOL["faults"](rooms, PAGE), [])

    def test_a_page_that_differs_from_the_list(self) -> None:
        for old, new in (("lsa: words", "elf: words"), ("#: LSAs", "#: LSAs as bytes"), ("# Packets", "# Bytes"), ("## Bytes and what they say.\n", "")):
            with self.subTest(new):
                self.assertIn("tools/check-rooms --write", " ".join(TOOL["faults"](TOOL["rooms_of"](LIST.replace(old, new)), PAGE)))

    def test_a_crate_of_which_nothing_is_said(self) -> None:
        found = TOOL["faults"](TOOL["rooms_of"](LIST.replace("#: packets\n", "")), PAGE)
        self.assertIn("crates.txt has no line '#: ' before `packet`", found)

    def test_a_section_for_each_crate_of_the_room(self) -> None:
        self.assertEqual(self.faults(packets="# Packets\n\n## lsa\n\n### Open\n\n## packet\n"), [])

    def test_sections_that_differ(self) -> None:
        for text, told in [
            ("## lsa\n", "lacks the section '## packet'"),
            ("## lsa\n## packet\n## words\n", "has a section '## words'"),
            ("## packet\n## lsa\n", "in another order"),
        ]:
            with self.subTest(text):
                self.assertIn(told, " ".join(self.faults(packets=text)))

    def test_pages_that_differ(self) -> None:
        self.assertIn("docs/proof/rooms/packets.md isn't there", self.faults())
        self.assertIn("no room of crates.txt names docs/proof/rooms/old.md", self.faults(packets="## lsa\n## packet\n", old=""))
        unnamed = self.faults(LIST.replace("## docs/proof/rooms/packets.md\n", ""), packets="## lsa\n## packet\n")
        self.assertIn("the room 'Packets' of crates.txt names no page of docs/proof/rooms/", unnamed)


if __name__ == "__main__":
    unittest.main()

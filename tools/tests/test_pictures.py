"""The pictures of docs/pictures: readable in dark mode, and as tools/draw-pictures draws them."""
import pathlib
import sys
import unittest

from loading import tool

TOP = pathlib.Path(__file__).resolve().parent.parent.parent
sys.dont_write_bytecode = True
draw = tool("draw-pictures")


class Pictures(unittest.TestCase):
    def test_each_is_readable_in_dark_mode(self) -> None:
        pictures = sorted((TOP / "docs/pictures").glob("*.svg"))
        self.assertTrue(pictures)
        self.assertEqual([it.name for it in pictures if draw.DARK not in it.read_text()], [])

    def test_each_is_on_a_page(self) -> None:
        pages = "".join(it.read_text() for it in [TOP / "README.md", *(TOP / "docs").rglob("*.md")])
        self.assertEqual([it.name for it in (TOP / "docs/pictures").glob("*.svg") if f"pictures/{it.name}" not in pages], [])

"""docs/work/ARCHITECTURE.md: its rows on changes name the places that such a change touches."""
import pathlib
import re
import unittest

TOP = pathlib.Path(__file__).resolve().parent.parent.parent
PAGE = (TOP / "docs/work/ARCHITECTURE.md").read_text()


def row(begin: str) -> str:
    found = re.search(rf"^- \*\*{begin}.*$", PAGE, flags=re.M)
    assert found, begin
    return found[0]


def having(pattern: str, *folders: str) -> list[pathlib.Path]:
    """Returns the sources, definitions, proofs and edits in folders in which a pattern is found."""
    ours = (".rt", ".antt", ".edit", ".py")
    files = [it for folder in folders for it in sorted((TOP / folder).rglob("*.*"))]
    return [it for it in files if it.suffix in ours and re.search(pattern, it.read_text())]


class TestArchitecture(unittest.TestCase):
    def named(self, begin: str, files: list[pathlib.Path]) -> None:
        self.assertTrue(files)
        for file in files:
            with self.subTest(str(file.relative_to(TOP))):
                name = file.name if file.suffix in (".rt", ".py") else file.stem
                if name == "Answers" and "proofs" in file.parts:
                    name = f"{file.parent.name}/{name}"
                self.assertRegex(row(begin), rf"(?<!\w){re.escape(name)}\b")

    def test_a_line_of_the_console(self) -> None:
        of_one = r"\b[Cc]ommands?(?:::|\.)Counters\b|\"counters\""
        crates = ("crates/console", "crates/operator", "crates/router_tests")
        self.named("A line of the console", having(of_one, *crates))

    def test_a_limit(self) -> None:
        # (the number in other lines than comments, and not as IPv4's flags)
        number = r"(?m)^(?! *(?:--|//)).*(?<!% )\b16_?384\b"
        self.named("A limit of ours", having(number, "crates"))
        self.named("A limit of ours", having(r"\b16[_,]?384\b", "host"))


if __name__ == "__main__":
    unittest.main()

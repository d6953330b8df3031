"""tools/check-types: a public type's name that stands in two crates is told of."""
import pathlib
import runpy
import tempfile
import unittest

TOP = pathlib.Path(__file__).resolve().parent.parent.parent
TOOL = runpy.run_path(str(TOP / "tools/check-types"), run_name="check_types")


class TestCheckTypes(unittest.TestCase):
    def shared(self, **crates: str) -> dict[str, list[str]]:
        with tempfile.TemporaryDirectory() as it:
            for name, text in crates.items():
                folder = pathlib.Path(it) / "crates" / name / "src"
                folder.mkdir(parents=True)
                (folder / "lib.rt").write_text(text)
            return TOOL["shared"](TOOL["types_of"](pathlib.Path(it)))

    def test_a_name_of_two_crates(self) -> None:
        found = self.shared(lsa="pub struct Body {\n", packet="\npub enum Body<'a> {\n")
        self.assertEqual(found, {"Body": ["crates/lsa/src/lib.rt", "crates/packet/src/lib.rt"]})

    def test_what_is_no_public_type_of_two_crates(self) -> None:
        for lsa, packet in [
            ("pub struct Body {", "pub struct PacketBody {"),
            ("pub struct Body {", "pub(crate) struct Body {"),
            ("pub struct Body {", "struct Body {"),
            ("pub struct Body {", "pub use lsa::Body;"),
            ("pub trait Body {\n}\npub type Body = u8;", ""),
        ]:
            with self.subTest(lsa=lsa, packet=packet):
                self.assertEqual(self.shared(lsa=lsa, packet=packet), {})

    def test_the_crates_have_none(self) -> None:
        self.assertEqual(TOOL["shared"](TOOL["types_of"](TOP)), {})


if __name__ == "__main__":
    unittest.main()

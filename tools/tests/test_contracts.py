"""tools/contracts: what the code promises is printed whole, and what isn't there is told."""
import pathlib
import runpy
import subprocess
import sys
import unittest

TOP = pathlib.Path(__file__).resolve().parent.parent.parent
TOOL = runpy.run_path(str(TOP / "tools/contracts"), run_name="contracts")
MEMBER = """    /// Whether.
    fn within(self, other: Self) -> bool
        ensures included { IsTrue result → (n : ℕ)
            → contains other n };

    fn next(self) -> u8;
""".splitlines()
BODY = """pub fn verify<D: Domain>(
    code: Code,
) -> Result<Accepted, Refusal>
    ensures same { IfOk result (λ accepted.
        accepted.code ≡ code) }
{
    let bound = 1;
}""".splitlines()


def ran(*words: str) -> subprocess.CompletedProcess:
    return subprocess.run([sys.executable, str(TOP / "tools/contracts"), *words], capture_output=True, text=True)


class TestContracts(unittest.TestCase):
    def test_a_contract_ends_where_the_body_begins(self) -> None:
        self.assertEqual(TOOL["signature"](BODY, 0, ""), 5)
        self.assertEqual(TOOL["signature"](["pub fn one() -> u8 {", "    1", "}"], 0, ""), 1)

    def test_a_member_of_a_trait_has_no_body(self) -> None:
        self.assertEqual(TOOL["signature"](MEMBER, 1, "    "), 4)
        self.assertEqual(TOOL["comment"](MEMBER, 1), 0)

    def test_whose_members_follow(self) -> None:
        for line, owner in [
            ("impl Core {", "Core"),
            ("impl<T: Wait> Link for Sockets<T> {", "Sockets"),
            ("pub trait Domain: Copy {", "Domain"),
            ("pub fn newer()", None),
        ]:
            with self.subTest(line):
                self.assertEqual(TOOL["owner_of"](line), owner)

    def test_a_function_by_its_type_or_its_crate_alone(self) -> None:
        for words in (["flood::Core::step"], ["flood::step"], ["flood::router_core::step"]):
            with self.subTest(words):
                text = ran(*words).stdout
                self.assertIn("pub fn step(&mut self", text)
                self.assertIn("ensures refused { RefusesByRules", text)
                self.assertNotIn("pub fn refuses", text)

    def test_a_law_and_a_member_of_a_trait(self) -> None:
        self.assertIn("ensures { ListsAreSound }", ran("invariants::lists_are_sound").stdout)
        self.assertIn("ensures everything {", ran("absdom::Domain::within").stdout)

    def test_a_line_for_each_function(self) -> None:
        lines = ran("--names", "verifier").stdout.splitlines()
        self.assertTrue(any(it.endswith(": verify: same, bound, safe, stated, named, first, plain, over") for it in lines), lines)

    def test_what_is_not_there_is_told(self) -> None:
        for words, told in [("nowhere", "there is no crate nowhere"), ("lsdb::nowhere", "no function lsdb::nowhere")]:
            with self.subTest(words):
                text = ran(words)
                self.assertEqual((text.returncode, text.stdout), (1, ""))
                self.assertIn(told, text.stderr)


if __name__ == "__main__":
    unittest.main()

"""tools/count-walks: which functions only hand on their arguments, and walks that no longer hold."""
import contextlib
import io
import pathlib
import runpy
import subprocess
import tempfile
import unittest

TOP = pathlib.Path(__file__).resolve().parent.parent.parent
TOOL = runpy.run_path(str(TOP / "tools/count-walks"), run_name="count_walks")
CODE = """
impl Link {
    pub fn ack(&mut self, headers: &[Header]) -> Result<(), AllocError>
        ensures ok { OnOk result (self.new ≡ record self.old {
          lists = after headers.now self.old.lists;
        }) }
    {
        self.lists
            .ack(headers)
    }

    fn asks(&self, key: &Key) -> bool
        ensures { result ≡ asks key.now self.now }
    {
        match &self.neighbor {
            None => false,
            Some(neighbor) => neighbor.asks(key),
        }
    }

    pub fn take(&mut self, step: &Step) -> Result<(), AllocError> {
        let count = self.lists.len() + 1; // not `step`
        self.ack(step.headers(count))
    }
}

impl Takes for Link {
    fn take(&mut self) {
        self.lists.settle();
    }
}

trait Takes {
    fn take(&mut self)
        ensures { self.new ≡ self.old };
}
"""

LAWS = """
/// Two sums are equal.
pub fn sums_are_equal()
    ensures { SumsAreEqual }
{
    crate::laws::numbers_are_equal();
}

pub fn sums_stay<D: Domain>(_sum: &D)
    ensures { SumsStay D.means }
{
    sums_are_equal();
}

pub fn none<D: Domain>() -> D
    ensures { D.means result ≡ none }
{
    D::none()
}

impl Link {
    pub fn go_down(&mut self)
        ensures { self.new ≡ none }
    {
        self.place.go_down();
    }

    pub fn stop(&mut self)
        ensures { self.new ≡ none }
    {
        stop(self);
    }
}
"""


def read(text: str) -> list:
    with tempfile.TemporaryDirectory() as room:
        path = pathlib.Path(room) / "link.rt"
        path.write_text(text, encoding="utf-8")
        return TOOL["functions_in"]("links", str(path))


class TestCountWalks(unittest.TestCase):
    def told(self, walk: str) -> tuple[bool, str]:
        with contextlib.redirect_stdout(io.StringIO()) as said, contextlib.redirect_stderr(said):
            return TOOL["told_walk"]("a walk", walk, read(CODE)), said.getvalue()

    def test_functions_and_what_they_hand_on(self) -> None:
        found = [(it.owner, it.name, it.is_of_trait, TOOL["only_hands_on"](it)) for it in read(CODE)]
        self.assertEqual(found, [("Link", "ack", False, True), ("Link", "asks", False, True), ("Link", "take", False, False),
                                 ("Link", "take", True, True)])

    def test_a_law_that_rests_on_another_hands_nothing_on(self) -> None:
        found = [(it.name, TOOL["only_hands_on"](it)) for it in read(LAWS)]
        self.assertEqual(found, [("sums_are_equal", False), ("sums_stay", False), ("none", True), ("go_down", True), ("stop", True)])

    def test_a_walk_that_holds(self) -> None:
        self.assertEqual(self.told("links Link asks\nlinks Link asks"), (True, "a walk: 2 functions in 1 crate\n    links: Link::asks, Link::asks\n"))

    def test_walks_that_do_not(self) -> None:
        for walk, said in [("links Link ack\nlinks Link asks", "don't follow each other"), ("links Link gone", "0 functions links Link gone"),
                           ("links Link take", "2 functions links Link take")]:
            with self.subTest(walk):
                holds, told = self.told(walk)
                self.assertFalse(holds)
                self.assertIn(said, told)

    def test_the_walks_of_the_repository(self) -> None:
        said = subprocess.run([TOP / "tools/count-walks", "--walks"], cwd=TOP, capture_output=True, text=True)
        self.assertEqual((said.returncode, said.stderr), (0, ""))


if __name__ == "__main__":
    unittest.main()

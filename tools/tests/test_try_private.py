"""tools/try-private: what the compiler has to say of each edit, by a stand-in for `rt`."""
import contextlib
import io
import os
import pathlib
import tempfile
import unittest
from unittest import mock

from loading import tool

CODE = "pub fn one() -> Answer {\n    Answer::of(1)\n}\n\npub fn two() -> Answer {\n    Answer::of(2)\n}\n"
EDIT = "tried by: the compiler\nerror: private-field\nfile: src/lib.rt\nold:     Answer::of({0})\nnew:     Answer {{ word: {0} }}\n"
FIRST = "src/lib.rt:2:14: error[private-field]: field `word` of struct `Answer` is private"
SECOND = "src/lib.rt:6:14: error[private-field]: field `word` of struct `Answer` is private"


class TryPrivate(unittest.TestCase):
    def tried(self, *said: str, edits: tuple[str, ...] = (EDIT.format(1), EDIT.format(2))) -> tuple[int, str, str, str]:
        """Returns the status, what is printed, what is told as wrong, and the code as it was compiled."""
        with tempfile.TemporaryDirectory() as folder:
            top = pathlib.Path(folder)
            for name in ("bin", "crates/answers/src", "crates/answers/mutants"):
                (top / name).mkdir(parents=True)
            for name in ("crates.txt", "HANDLES"):
                (top / name).write_text("")
            (top / "crates/answers/src/lib.rt").write_text(CODE)
            for number, edit in enumerate(edits):
                (top / f"crates/answers/mutants/{number}.edit").write_text(edit)
            (top / "crates/answers/mutants/plants").mkdir()
            (top / "crates/answers/mutants/other.edit").write_text("tried by: a check of the crate\nfile: src/lib.rt\nold: 1\nnew: 2\n")
            (top / "said").write_text("".join(f"{it}\n" for it in said))
            (top / "bin/rt").write_text(f"#!/bin/sh\necho \"$@\" >>{top}/calls\ncat src/lib.rt >{top}/compiled\ncat {top}/said >&2\nexit 1\n")
            (top / "bin/rt").chmod(0o755)
            ours, printed, wrong = tool("try-private"), io.StringIO(), io.StringIO()
            ours.TOP = str(top)
            path = f"{top}/bin:{os.environ['PATH']}"
            with mock.patch.dict(os.environ, PATH=path), mock.patch("sys.argv", ["try-private"]), mock.patch("signal.signal"):
                with contextlib.redirect_stdout(printed), contextlib.redirect_stderr(wrong):
                    status = ours.main()
            self.assertEqual((top / "calls").read_text(), "try --test\n")
            self.assertEqual((top / "crates/answers/src/lib.rt").read_text(), CODE)
            return status, printed.getvalue(), wrong.getvalue(), (top / "compiled").read_text()

    def test_all_edits_of_a_crate_are_compiled_at_once(self) -> None:
        status, printed, wrong, compiled = self.tried(FIRST, SECOND)
        self.assertEqual((status, wrong), (0, ""))
        self.assertEqual(printed, "answers/0.edit: refused, as it must be\nanswers/1.edit: refused, as it must be\n2 refused, 0 not\n")
        self.assertEqual(compiled, CODE.replace("Answer::of(1)", "Answer { word: 1 }").replace("Answer::of(2)", "Answer { word: 2 }"))

    def test_one_that_compiles_is_told(self) -> None:
        status, printed, _, _ = self.tried(SECOND)
        self.assertEqual(status, 1)
        self.assertEqual(printed, "answers/0.edit: NOT REFUSED\nanswers/1.edit: refused, as it must be\n1 refused, 1 not\n")

    def test_another_error_counts_for_nothing(self) -> None:
        status, printed, _, _ = self.tried(FIRST, SECOND.replace("private-field", "unknown-field"))
        self.assertEqual((status, printed.splitlines()[-1]), (1, "1 refused, 1 not"))

    def test_none_is_refused_where_a_test_ran(self) -> None:
        status, printed, _, _ = self.tried(FIRST, SECOND, "test answers::each ... ok")
        self.assertEqual((status, printed.splitlines()[-1]), (1, "0 refused, 2 not"))

    def test_one_whose_text_is_gone_is_told(self) -> None:
        status, printed, wrong, _ = self.tried(FIRST, SECOND, edits=(EDIT.format(1), EDIT.format(3)))
        self.assertEqual((status, printed.splitlines()[-1]), (1, "1 refused, 1 not"))
        self.assertEqual(wrong, "answers/1.edit: 'old' stands 0 times in src/lib.rt, not once\n")


if __name__ == "__main__":
    unittest.main()

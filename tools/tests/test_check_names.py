"""tools/check-names: a page that names what no clone has is refused."""
import pathlib
import subprocess
import sys
import tempfile
import unittest

TOP = pathlib.Path(__file__).resolve().parent.parent.parent


def check(text: str) -> subprocess.CompletedProcess:
    with tempfile.TemporaryDirectory() as room:
        page = pathlib.Path(room, "PAGE.md")
        page.write_text(text)
        command = [sys.executable, TOP / "tools/check-names", page]
        return subprocess.run(command, capture_output=True, text=True)


class TestCheckNames(unittest.TestCase):
    def refused(self, planted: list[tuple[str, str]]) -> None:
        """Each text stands on a line of one page, and is reported with the name beside it."""
        ran = check("".join(f"{text}\n" for text, _ in planted))
        self.assertEqual(ran.returncode, 1)
        for number, (text, name) in enumerate(planted, 1):
            with self.subTest(text):
                told = [it for it in ran.stderr.splitlines() if f"PAGE.md:{number}: " in it]
                self.assertIn(name, "\n".join(told))

    def test_files_that_a_clone_lacks(self) -> None:
        self.refused([
            ("Run ../shared/tools/scale first.", "../shared/tools/scale"),
            ("`../shared/tools/scale ROUTERD`, as root.", "../shared/tools/scale"),
            ("    /work/h/bin/routerd route one.conf", "/work/h/bin/routerd"),
            ("docs/NOWHERE.md says more.", "docs/NOWHERE.md"),
            ("See [that page](docs/NOWHERE.md).", "docs/NOWHERE.md"),
            ("`tools/no-such-tool --help`", "tools/no-such-tool"),
            ("It reads examples/nothing/*.s.", "examples/nothing/*.s"),
            ("It makes tools/tests/__pycache__/x.pyc.", "tools/tests/__pycache__/x.pyc"),
        ])

    def test_headings_that_a_page_lacks(self) -> None:
        self.refused([
            ("docs/proof/rooms/verifier.md#no_crate says it.", "rooms/verifier.md#no_crate: "),
            ("See [there](docs/reference/GLOSSARY.md#nowhere).", "GLOSSARY.md#nowhere: "),
            ("docs/NOWHERE.md#verifier", "docs/NOWHERE.md#verifier"),
        ])

    def test_clauses_that_a_function_lacks(self) -> None:
        self.refused([
            ("`verifier::verify`: `same`, `sure`", "`verifier::verify` has no clause `sure`"),
            ("By `flood::Core::step`, clause `vague`.", "`flood::Core::step` has no clause"),
            ("It is clause `nothing` of `close_hub`.", "`close_hub` has no clause `nothing`"),
        ])

    def test_clauses_that_a_function_has(self) -> None:
        ran = check(
            "`verifier::verify`: `same`, `bound` and `safe`; clause `ok` of `step`.\n"
            "`step`, clause `named`; `worker::Core::step`: `ok`.\n"
            "## flood\n`step`, clause `refused`; `Core::new`: `ok`, `profile`.\n"
        )
        self.assertEqual((ran.returncode, ran.stderr), (0, ""))

    def test_functions_that_have_another_name(self) -> None:
        self.refused([
            ("`flood::Core::refuses` is early.", "`flood` has no `Core::refuses`"),
            ("`Core::refuses` is early.", "`Core` has no `refuses`"),
            # (words of these crates, in other places)
            ("`worker::sent`", "`worker` has no `sent`"),
            ("`lsdb::Lsdb::{install, database}`", "`lsdb` has no `Lsdb::database`"),
        ])

    def test_functions_of_another_crate(self) -> None:
        self.refused([
            # (flood uses router, and lsdb, without passing these on)
            ("By `flood::receive_lsas`.", "`flood` has no `receive_lsas`"),
            ("By `flood::newer`.", "`flood` has no `newer`"),
            ("`turns::processing::early_refusal`", "`turns` has no `processing::early_refusal`"),
        ])

    def test_methods_of_another_type(self) -> None:
        self.refused([
            ("`flood::Book::step` takes it.", "`flood` has no `Book::step`"),
            ("`Loader::ask` takes it.", "`Loader` has no `ask`"),
            ("`flood::step` takes it.", "`flood` has no `step`"),
            ("`flood::CoreError::Journal`", "`flood` has no `CoreError::Journal`"),
            # (a predicate of its contracts, and no function)
            ("`turns::Taker::refuses`", "`turns` has no `Taker::refuses`"),
        ])

    def test_clauses_that_another_function_has(self) -> None:
        self.refused([
            # (of Core::new; of Book::new; of `new` and of `step` in other crates)
            ("`flood::Book::new`: `book`, `profile`", "`flood::Book::new` has no clause `profile`"),
            ("`Core::new`, clause `share`", "`Core::new` has no clause `share`"),
            ("It is clause `graph` of `flood::Book::new`.", "has no clause `graph`"),
            ("## flood", ""),
            ("`step`, clause `named`", "`step` has no clause `named`"),
        ])

    def test_rows_of_a_crate(self) -> None:
        self.refused([
            ("## flood", ""),
            ("- **`Core::step`, `okay`**: what is sent",
             "`flood` has no function, clause or definition `okay`"),
            # (a clause of Book::apply; a function of lsdb; a former name)
            ("- **`Core::step`, `share` (`IsOf`)**: what is sent", "definition `share`"),
            ("- **`newer`; `candidates`**: which is", "definition `newer`"),
            ("- **`Core::refuses`**: why", "definition `refuses`"),
        ])
        ran = check(
            "## flood\n- **`Core::step`, `keeps` (`Keeping.KeepsWhatIsKnown`)**: all\n"
            "- **`candidates`, `rows`**: routes\n- **`IsFull`, `early_refusal`**: definitions\n"
            "## No crate\n- **`nothing`**: is looked up\n"
        )
        self.assertEqual((ran.returncode, ran.stderr), (0, ""))

    def test_definitions_of_another_file(self) -> None:
        self.refused([
            # (imported there, and so a word of that file)
            ("`Refusals.BookView` it is.", "no specs/Refusals.antt has `BookView`"),
            ("`flood/specs/Refusals.early_refusal`", "`flood` has no such definition"),
        ])

    def test_names_that_sources_have(self) -> None:
        ran = check(
            "`flood::Core::{step, new}`, `Core::step`, `processing::early_refusal`.\n"
            "`worker::Core::step` (passed on by turns, which has it of flood), `captures::read`,\n"
            "`CoreError::ClockBack`, `flood::ConfigError`, `commands::program::carry_out`,\n"
            "`hooks::Asker::ask`, `lsa::Lsa::new`, `machine::TableRow`, `std::thread::join`,\n"
            "`turns::Taker`, `flood::laws`; `Routers.Occurrence`, `Refusals.IsFull`,\n"
            "`Originations.router_key`, `flood/specs/Early.early_refusal`.\n"
        )
        self.assertEqual((ran.returncode, ran.stderr), (0, ""))

    def test_headings_that_a_page_has(self) -> None:
        ran = check(
            "docs/proof/rooms/verifier.md#verifier, CONTRIBUTING.md#how-a-rule-is-changed.\n"
        )
        self.assertEqual((ran.returncode, ran.stderr), (0, ""))

    def test_files_that_a_clone_has_or_makes(self) -> None:
        ran = check(
            "docs/work/GATE.md, `tools/check-names`, examples/c/*.c, crates/routerd/out/routerd,\n"
            "crates/NAME/src, and (docs/use/HOST.md). In crates/isa/.. is more; host/ too.\n"
        )
        self.assertEqual((ran.returncode, ran.stderr), (0, ""))


if __name__ == "__main__":
    unittest.main()

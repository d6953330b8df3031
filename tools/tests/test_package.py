"""tools/package: what it takes from the repository is there, and its texts are as Debian wants them."""
import pathlib
import subprocess
import sys
import unittest

from loading import tool

TOP = pathlib.Path(__file__).resolve().parent.parent.parent
sys.dont_write_bytecode = True


package = tool("package")
CLAP = "Runs.\n\nUsage: routerd <COMMAND>\n\nCommands:\n  raw     Runs bare code\n  route   Runs\n  help    Print\n\nOptions:\n  -h, --help  Print help\n"


class TestPackage(unittest.TestCase):
    def test_the_unit_has_all_that_is_replaced(self) -> None:
        unit = (TOP / "host/leafrunt@.service").read_text()
        for old, new in package.UNIT.items():
            unit = package.replaced(unit, old, new, "the unit")
        self.assertIn("ExecStart=/usr/bin/leafrunt up /etc/leafrunt/%i.toml\n", unit)
        self.assertNotIn("/usr/local", unit)

    def test_the_configuration_names_the_program_that_is_replaced(self) -> None:
        self.assertIn('"/usr/local/bin/routerd"', (TOP / "host/leafrunt_host/configuration.py").read_text())

    def test_the_pages_for_users_are_there(self) -> None:
        self.assertEqual([it for it in package.READ if not (TOP / it).exists()], [])
        self.assertEqual([it for it in package.READ if it.startswith("docs/work")], [])

    def test_what_is_not_there_is_told(self) -> None:
        with self.assertRaisesRegex(package.Fault, "x has no 'b' any more"):
            package.replaced("a", "b", "c", "x")

    def test_the_changes_of_this_version(self) -> None:
        version = (TOP / "VERSION").read_text().strip()
        text = package.changelog(f"{version}~unproved", "0123")
        self.assertTrue(text.startswith(f"leafrunt ({version}~unproved) unstable; urgency=medium\n\n  * Programs that were compiled without proof.\n"))
        self.assertTrue(all(len(it) <= 80 for it in text.splitlines()), text)
        with self.assertRaisesRegex(package.Fault, "no section"):
            package.changelog("99.0", "0123")

    def test_the_help_of_the_programs_says_this_version(self) -> None:
        version = (TOP / "VERSION").read_text().strip()
        for file in ("commands/src/commands.rt", "hooktool_trials/src/arguments.rt"):
            self.assertIn(f'\n\nLeafrunt {version}";', (TOP / "crates" / file).read_text(), file)

    def test_the_commands_of_a_program(self) -> None:
        self.assertEqual(package.commands_of(CLAP), ["raw", "route"])
        box = subprocess.run([sys.executable, TOP / "host/leafrunt", "--help"], capture_output=True, text=True).stdout
        self.assertLessEqual({"up", "status", "check", "down"}, set(package.commands_of(box)))

    def test_tables_are_lists_of_terms(self) -> None:
        text = "| Key | What | Without it |\n|---|---|---|\n| `a \\| b` | one | two |\n\nMore.\n"
        self.assertEqual(package.listed(text), "`a | b`\n\n:   *What*: one; *Without it*: two\n\n\nMore.\n")

    def test_programs_alone_say_nothing_of_a_proof(self) -> None:
        ran = subprocess.run([TOP / "tools/package", "--programs", "/tmp"], capture_output=True, text=True)
        self.assertEqual(ran.returncode, 2)
        self.assertIn("goes with --unproved", ran.stderr)


if __name__ == "__main__":
    unittest.main()

"""tools/check-crate: in which function an edit's line and the prover's are."""
import unittest

from loading import tool

check_crate = tool("check-crate")
SOURCE = """use isa::Width;

/// One.
#[inline(always)]
#[must_use]
fn one() -> u64
    ensures { result = 1 }
{
    1
}

pub(crate) fn two() -> u64 {
    2
}
""".split("\n")


class TestFunctionAt(unittest.TestCase):
    def test_attributes_and_comments_before_a_function_are_its_own(self) -> None:
        self.assertEqual(check_crate.function_at(SOURCE, 8), ("one", 2, 9))

    def test_a_function_without_attributes_begins_at_its_line(self) -> None:
        self.assertEqual(check_crate.function_at(SOURCE, 12), ("two", 11, 13))

    def test_a_line_outside_of_functions_stands_alone(self) -> None:
        self.assertEqual(check_crate.function_at(SOURCE, 0), ("", 0, 0))


if __name__ == "__main__":
    unittest.main()

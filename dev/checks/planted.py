"""A small crate and edits of every kind, for the test of check_wrong_bodies.py."""

FILES = {
    "proofs/triple/Answers.antt": """use Rattle.std.proofs.Common.{◌≡◌, ◌∙◌, ◌+◌, ℕ, ap}
use Rattle.planted.proofs.triple.Goals as goal

pub returns : goal.returns
returns c =
    ap (λ (last : ℕ). c.double-twice.result + last) c.from.ensures
    ∙ ap (λ (twice : ℕ). twice + c.args.n) c.double-twice.ensures
""",
    "src/lib.rt": """//! Sums of small numbers.
#![tactic(auto)]
ghost use Rattle.std.specs.Prelude.{◌≡◌, ◌+◌};
ghost use Rattle.planted.specs.declared.TheConstants as constants;

/// The greatest digit.
pub const MOST: u8 = 9;

/// No number of a clause.
pub const UNUSED: u8 = 3;

/// The sum of two numbers.
pub fn sum(a: u8, b: u8) -> u16
    ensures { result ≡ a + b }
{
    u16::from(a) + u16::from(b)
}

/// The double of a number.
pub fn double(n: u8) -> u16
    ensures { result ≡ n + n }
{
    sum(n, n)
}

/// Three times a number.
pub fn triple(n: u8) -> u16
    ensures { result ≡ n + n + n }
{
    let twice = double(n);
    twice + u16::from(n)
}

/// The greatest digit is 9.
pub fn digits_are_decimal()
    ensures { constants.MOST ≡ 9 }
{}
""",
}  # fmt: skip


def edit(old, new):
    return f"file: src/lib.rt\nold: {old}\nnew: {new}\n"


# The name of an edit, its verdict, and its text.
EDITS = [
    ("second_number_is_the_first", "refused", edit("    u16::from(a) + u16::from(b)", "    u16::from(a) + u16::from(a)")),
    ("numbers_are_exchanged", "NOT REFUSED", edit("    u16::from(a) + u16::from(b)", "    u16::from(b) + u16::from(a)")),
    ("double_is_one_more", "refused", edit("    sum(n, n)", "    sum(n, 1)")),
    ("triple_takes_another_number", "refused", edit("    twice + u16::from(n)", "    twice + u16::from(MOST)")),
    ("triple_calls_another_function", "STALE NAMES", edit("    let twice = double(n);", "    let twice = sum(n, n);")),
    ("a_number_is_missing", "DOES NOT COMPILE", edit("    sum(n, n)", "    sum(n)")),
    ("a_text_stands_twice", "CHANGES TWO PLACES", edit("u16::from(", "u16::into(")),
    ("a_text_is_not_there", "NOT FOUND", edit("u32::from(n)", "0")),
    ("a_new_text_has_no_place", "BAD FORM", "file: src/lib.rt\nnew: 0\n"),
    ("greatest_digit_is_8", "refused", edit("pub const MOST: u8 = 9;", "pub const MOST: u8 = 8;")),
    ("another_number_of_no_clause", "NOT REFUSED", edit("pub const UNUSED: u8 = 3;", "pub const UNUSED: u8 = 4;")),
    ("no_line_is_changed", "BAD FORM", edit("    sum(n, n)", "    sum(n, n)")),
    ("a_definition_is_edited", "BAD FORM", "file: proofs/triple/Answers.antt\nold: twice + c\nnew: c\n"),
]

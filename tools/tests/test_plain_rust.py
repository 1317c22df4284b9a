"""Tests of what tools/plain-rust makes of the text of a file: python3 -m unittest discover -s tools/tests"""
import os
import sys
import unittest

sys.path.insert(0, os.path.join(os.path.dirname(os.path.abspath(__file__)), ".."))
from plain_rust.translate import Translation, Unclear, translate


def made(text):
    """The translation, without the blanks at the ends of lines and without empty lines."""
    lines = [line.rstrip() for line in Translation(text).whole().split("\n")]
    return "\n".join(line for line in lines if line)


class PlainRust(unittest.TestCase):
    def test_clauses_go(self):
        text = """fn f(a: &[u8]) -> u8
    requires { 0 < length a.now }
    ensures* kept { (λ x. x ≡ "}") result × (1
        ≡ 1) }
{
    a[0]
}
"""
        self.assertEqual(made(text), "fn f(a: &[u8]) -> u8\n{\n    a[0]\n}")

    def test_a_clause_of_a_declared_method(self):
        self.assertEqual(made("fn f(&self) -> u8\n    ensures { result ≡ 1 };"), "fn f(&self) -> u8\n    ;")

    def test_ghost_items_go(self):
        text = """ghost use Rattle.std.specs.Prelude.{◌≡◌, []};
pub struct A {
    b: u8,
    pub ghost few: { length (of b) ≤ 2 } by { proof },
    ghost last: { b < 3 }
}
impl Model for A {
    ghost view = { λ a. record { b = a.b } };
}
impl<T: Drop> Model for B<T> { ghost Value = { ℕ }; }
trait C { ghost holds: { Self → Type 0 } = { λ _. ⊤ }; fn c(&self); }
"""
        self.assertEqual(made(text), "pub struct A {\n    b: u8,\n}\ntrait C {  fn c(&self); }")

    def test_comments_and_attributes_go(self):
        gone = "#![tactic(auto)]\n//! A.\n#[cycle(walk)]\n#[derive(Drop)]\n"
        text = gone + '#[derive(Clone, Drop)]\n#[inline]\nfn a() { b("//") } /* c */'
        self.assertEqual(made(text), '#[derive(Clone)]\n#[inline]\nfn a() { b("//") }')

    def test_names_of_std(self):
        self.assertEqual(made("use std::{env, io}; c::std::d;"), "use plain_std::{env, io}; c::std::d;")
        self.assertEqual(made("vec![in b; 0; 2]? != vec"), "plain_std::vec![in b; 0; 2]? != vec")
        self.assertEqual(made("format != vec"), "format != vec")
        self.assertEqual(made("Box::new(a, b)? Box::into_inner(c)"), "Box::new_box(a, b)? Box::into_inner_box(c)")
        self.assertEqual(made("a.to_vec(b)?; c.to_vec(); d.collect::<E>(f)"), "a.to_vec_in(b)?; c.to_vec(); d.collect_in::<E>(f)")

    def test_texts_and_characters_stay(self):
        text = r"""let a = ("requires { \" ", b'"', '\'', '{', r#"ghost "use" ;"#, b"std::a"); fn f<'a>(b: &'a str) {}"""
        self.assertEqual(made(text), text)

    def test_lines_stay_where_they_are(self):
        text = "//! A.\nghost use A.{\n  b};\n/* c\nd */ fn main(rt: HostRuntime)\n    ensures {\n 1 }\n{}\n"
        whole = translate(text, is_program=True)
        self.assertEqual(whole.split("\n")[4].strip(), "fn program_main(rt: HostRuntime)")
        self.assertEqual(whole.split("\n")[7], "{}")
        self.assertIn("program_main(plain_std::rt::HostRuntime::new())", whole)

    def test_a_bracket_without_an_end(self):
        self.assertRaises(Unclear, made, "fn f() ensures { ( }")


if __name__ == "__main__":
    unittest.main()

"""Makes plain Rust of the text of a Rattle file: takes out what is there for proofs alone, and names the shims for std.

Each line of the result says what the same line of the file says, so that a message of rustc or of a panic names the right
line. Taken out are comments, `ghost` items and `ghost use`, clauses (`requires`, `ensures`), `impl Model` blocks, the
attributes `tactic` and `cycle`, the derive `Drop` and the word `final`. Renamed is what std has otherwise: paths from `std`,
macros, `Box::new` and `Box::into_inner`, and the few methods of slices and iterators that take an allocator here. What has
the same names and other results, as `Vec` and `String`, is in the shims, which each module gets by their prelude.
"""
import re

# What the shim of std is called in the translation.
STD = "plain_std"

# The macros that are written otherwise here: each is a macro of the shim.
MACROS = {"vec", "format", "print", "println", "eprintln", "assert", "assert_eq", "prove"}

# Methods of Rust's own types that take an allocator here, where they have an argument.
METHODS = {"to_vec": "to_vec_in", "collect": "collect_in"}

# A piece of a text: its kind is the group's name. Of the first four only the beginning is read.
TOKEN = re.compile(
    r"""
    (?P<clause>(?:requires|ensures)\b\*?\s*(?:\w+\s*)?(?=\{))
  | (?P<ghost>(?:pub(?:\([^()]*\))?\s+)?ghost\b)
  | (?P<model>impl(?:<[^{;]*?>)?\s+Model\s+for\s[^{;]*(?=\{))
  | (?P<attribute>\#!?(?=\[))
  | (?P<space>\s+)
  | (?P<comment>//[^\n]*|/\*.*?\*/)
  | (?P<string>b?r(?P<hashes>\#*)".*?"(?P=hashes)|b?"(?:\\.|[^"\\])*")
  | (?P<char>b?'(?:\\(?:x[0-9a-fA-F]{2}|u\{[^}]*\}|.)|[^'\\])')
  | (?P<lifetime>'\w+)
  | (?P<word>\w+)
  | (?P<sign>::|->|=>|\.\.|.)
    """,
    re.X | re.S,
)

# What may hide a bracket in a clause: a text or a comment.
HIDING = re.compile(r'"(?:\\.|[^"\\])*"|--[^\n]*|//[^\n]*', re.S)

OPEN, CLOSE = "([{", ")]}"


class Unclear(Exception):
    """A text in which a bracket has no end."""


def past_brackets(text, at):
    """Returns the place behind the bracket that closes the one at this place."""
    depth = 0
    while at < len(text):
        hidden = HIDING.match(text, at)
        if hidden:
            at = hidden.end()
            continue
        depth += (text[at] in OPEN) - (text[at] in CLOSE)
        at += 1
        if not depth:
            return at
    raise Unclear


def past_ghost(text, at):
    """Returns the place behind a ghost item, of which more is read from this place on.

    It ends with its `;` or `,`, or before the bracket that closes what it is in.
    """
    while at < len(text):
        hidden = HIDING.match(text, at)
        if hidden:
            at = hidden.end()
        elif text[at] in OPEN:
            at = past_brackets(text, at)
        elif text[at] in ";,":
            return at + 1
        elif text[at] in CLOSE:
            return at
        else:
            at += 1
    raise Unclear


# Where a piece ends that is there for proofs alone.
PAST = {"clause": past_brackets, "model": past_brackets, "ghost": past_ghost}


def derive_without_drop(text):
    """Returns a derive without the trait Drop, or nothing where it has no other."""
    names = [it.strip() for it in text[text.index("(") + 1 : text.rindex(")")].split(",")]
    names = [it for it in names if it and it != "Drop"]
    return f"#[derive({', '.join(names)})]" if names else ""


def attribute(whole):
    """Returns what stands for an attribute."""
    name = re.match(r"#!?\[(\w*)", whole)[1]
    if name in ("tactic", "cycle"):
        return ""
    return derive_without_drop(whole) if name == "derive" else whole


class Translation:
    """A text on its way: what is made of it so far, and the place that is read next."""

    def __init__(self, text):
        self.text, self.at, self.made, self.before = text, 0, [], ["", ""]

    def put(self, made, end):
        """Puts what stands for the text up to this place, and the ends of its lines that are lost."""
        lines = self.text.count("\n", self.at, end) - made.count("\n")
        self.made.append(made + "\n" * lines)
        self.at = end

    def renamed(self, word, end):
        """Returns what a word is called in the translation."""
        follows = self.text[end : end + 40]
        if word in MACROS and re.match(r"!\s*[(\[{]", follows):
            return f"{STD}::{word}"
        if word == "std" and follows.startswith("::") and self.before[-1] != "::":
            return STD
        if word in METHODS and self.before[-1] == "." and re.match(r"(?:::<[^()]*>)?\((?!\))", follows):
            return METHODS[word]
        if word in ("new", "into_inner") and self.before == ["Box", "::"]:
            return f"{word}_box"
        return "" if word == "final" and re.match(r"\s+fn\b", follows) else word

    def step(self):
        token = TOKEN.match(self.text, self.at)
        kind, whole, end = token.lastgroup, token[0], token.end()
        if kind in PAST or kind == "comment":
            end = PAST[kind](self.text, end) if kind in PAST else end
            self.put("", end)
        elif kind == "attribute":
            end = past_brackets(self.text, end)
            self.put(attribute(self.text[self.at : end]), end)
        else:
            self.put(self.renamed(whole, end) if kind == "word" else whole, end)
            if kind != "space":
                self.before = [self.before[-1], whole]

    def whole(self):
        while self.at < len(self.text):
            self.step()
        return "".join(self.made)


def translate(text, is_program=False):
    """Returns the plain Rust of a file's text; of a program's root file with a `main` as Rust wants it."""
    made = Translation(text).whole()
    head = f"#[allow(unused_imports)] use {STD}::prelude::*; "
    if not is_program:
        return head + made
    made = re.sub(r"\bfn main\(", "fn program_main(", made, count=1)
    runtime = f"{STD}::rt::HostRuntime::new()" if re.search(r"fn program_main\(\s*\w", made) else ""
    return f"{head}{made}\nfn main() -> impl std::process::Termination {{\n    program_main({runtime})\n}}\n"

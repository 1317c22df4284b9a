// A data design: a document's versions in a line, each made by an editor from the one before.

open util/ordering[Version] as line

sig Editor {}
sig Paragraph {}
sig Version { author: one Editor, text: set Paragraph }

// An edit adds or removes one paragraph.
fact edits {
  all v: Version - line/first | let old = v.(line/prev).text |
    one (v.text - old) + (old - v.text)
}
fact starts_empty { no line/first.text }

// Command 0: three versions by three editors.
// Answer: a trace, status 10.
run { #author.Editor = 3 and #Version.author = 3 } for exactly 3 Version, 3 Editor, 3 Paragraph

// Command 1: a version is never like an earlier one.
// Answer: a trace, status 10. A paragraph may be removed again.
check { no disj v, w: Version | v.text = w.text } for 3

// Command 2: but never like the one just before.
// Answer: "none states 1", status 20.
check { all v: Version - line/first | v.text != v.(line/prev).text } for 4

// Command 3: whatever the last version has, some version added it.
// Answer: "none states 1", status 20.
check {
  all p: line/last.text | some v: Version - line/first | p in v.text and p not in v.(line/prev).text
} for exactly 4 Version, 3 Editor, 3 Paragraph

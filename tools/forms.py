#!/usr/bin/env python3
"""Counts the places in crates/*/src that are written in an older form than the language has now.

Usage: forms.py [--list] [TOP]. It prints a line a kind: the point of docs/DESIGN-PASS.md, what is counted, how often, in which crates;
with --list each place, too. Comments and use lines are not counted.
"""
import pathlib
import re
import sys

OWN = r"\b(Found|Where|Judged|Counted|Step|Spot|Sought|Worked|Begun|Opened|Answer|Replaced)::"
KINDS = [
    ("1", "own enum of the shape of Option or Result, made or matched", OWN),
    ("1", "a flag beside a value, a field", r"^\s*pub(\(crate\))? (ok|sound|held|done|broken|over|whole|ended|failed|ready|changed|comment|spare): bool|Checked \{ sound: bool"),
    ("1", "a number for a kind, a mode, a command", r"\b(kind|mode|sel|function|command): (u8|u32|usize)\b"),
    ("1", "a bool for a refusal of what is lent", r"fn .*&mut .*-> bool"),
    ("1", "a refusal or a false returned early", r"return .*(Denied|Refused|refused)\(|return false;"),
    ("1", "a bound or a number for nothing", r"return (t|8|64|65536|16);|\bNOTHING\b"),
    ("2", "twins of marking and freeing", r"fn (mark_bits|free_bits|mark_run|free_run|mark_in|free_in|set_mark|clear_mark|with_bit|without_bit)\("),
    ("2", "twins of plain and text", r"fn (read_one|read_text|write_one|write_text|update_one|update_text)\("),
    ("2", "getters of an entry by its slot, beside those of the entry", r"fn (is_contiguous|start_of|sectors_in|records_in|record_length)\(img|fn (is_contiguous|start_of|sectors_in|records_in)\("),
    ("2", "the lesser of two by hand", r"fn (lesser|least|within)\("),
    ("2", "a byte or a word widened by hand", r"\b(wide|wide16|wide_long)\("),
    ("2", "a walk over the segments of a block by their number", r"let n = segments\("),
    ("3", "while, loop", r"^\s*('\w+: )?(while .*\{|.*\bloop \{)"),
    ("3", "an index counted", r"\+= 1;"),
    ("4", "equality by hand", r"\bsame_bytes\("),
    ("4", "a table of an enum's cases", r"\w+::\w+ => (true|false|0x\w+),"),
    ("4", "a word at a place", r"\b(word_at|long_at|put_word|put_long)\("),
    ("4", "as", r"\bas (usize|u8|u16|u32|u64)\b"),
    ("5", "image and layout beside one another", r"(img|image): &(mut )?\[u8\],.* p: Layout"),
    ("5", "image and map beside one another", r"(img|image): &(mut )?\[u8\], map: &\[u16\]"),
    ("5", "the start and the end of a sector, in locals", r"let (end|e) = (at|a) \+ (256|32|LUN_BYTES)"),
    ("5", "the fact Located in a clause", r"\bLocated (img|image)\.(now|old) p"),
    ("5", "the fact InUse in a clause", r"\bInUse (img|image)\.(now|old) p"),
    ("5", "the length of a sector, an entry, a block or a desk in a clause", r"length \w+\.(now|old) ≡ (256\b(?! \*)|32|blockSize|deskSize|lunBytes|block_size|desk_size|lun_bytes)"),
    ("5", "the list of used slots in a clause", r"used\.now ≡ used_?[sS]lots"),
    ("6", "the front of a room", r"&(mut )?\w+\[\.\.\w+\]"),
    ("6", "a room of fixed size", r"let mut \w+ = \[0(u8|u16|usize)?; "),
    ("6", "a room of fixed size, a field", r"^\s*pub(\(crate\))? \w+: \[u8; "),
    ("7", "a switch on a number", r"match command|function == 0x|f == 0x|sel == \d|kind == 0"),
    ("7", "a prologue that stands again", r"match self\.(begin|open)\(|let (begun|opened) = self\.|in_form\(desk\)"),
]


def lines(top):
    """The lines of the sources, with their file and number."""
    for path in sorted(pathlib.Path(top).glob("crates/*/src/**/*.rt")):
        for number, text in enumerate(path.read_text(encoding="utf-8").split("\n"), 1):
            if not text.strip().startswith(("//", "ghost use ", "use ")):
                yield path.relative_to(top), number, text


def main():
    arguments = [a for a in sys.argv[1:] if a != "--list"]
    top = arguments[0] if arguments else "."
    source = list(lines(top))
    for point, what, expression in KINDS:
        found = [(p, n, t.strip()) for p, n, t in source if re.search(expression, t)]
        crates = {}
        for path, _, _ in found:
            crates[path.parts[1]] = crates.get(path.parts[1], 0) + 1
        where = " ".join(f"{c}={k}" for c, k in sorted(crates.items(), key=lambda item: -item[1]))
        print(f"{point} {what:62} {len(found):4}  {where}".rstrip())
        if "--list" in sys.argv:
            for path, number, text in found:
                print(f"      {path}:{number}: {text[:110]}")


if __name__ == "__main__":
    main()

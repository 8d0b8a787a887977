#!/usr/bin/env python3
"""Lists the places in crates/*/src that newer forms of the language might better, by the points of docs/DESIGN-PASS.md.

    python3 tools/places.py [FOLDER] [--list]

Each pattern is looked for in the text of a file with its comments blanked and line breaks kept, so that a signature
over several lines counts once. The counts are of places, not of lines; with --list each place is printed.
"""
import pathlib
import re
import sys

# point, what is looked for, pattern (over the whole text of a file)
PATTERNS = [
    (1, "an answer Option<Fault>, for a caller to turn into Err", r"fn \w+(?:<[^>]*>)?\([^{};]*?\)\s*->\s*Option<\w*Fault>"),
    (1, "if let Some(fault) or Err(fault) = .. that gives the fault on", r"if let (?:Some|Err)\(fault\) ="),
    (1, "a match that only passes on an error, a None or a default", r"Err\(\w+\) => (?:return )?(?:Err|Some)\(|None => (?:None|0|true|false|return None|Err\(|return Err\(|\w+::[A-Z]+,)|Err\(_\) => (?:0|None)|Ok\(_\) => None"),
    (1, "an if that only makes Some or None, Ok or Err", r"\{\s*(?:Some|Ok)\([^{}]*\)\s*\} else \{\s*(?:None|Err\([^{}]*\))\s*\}|\{\s*(?:None|Err\([^{}]*\))\s*\} else \{\s*(?:Some|Ok)\([^{}]*\)\s*\}"),
    (1, "a bool for a refusal of a call that changes something", r"fn \w+\(&mut self(?:[^{};]|; \d+\])*?\)\s*->\s*bool"),
    (1, "numbers for kinds", r"const [A-Z]+: u8 = |\[0\] (?:==|!=) [12]\b|out\[0\] = 1|head = \[\s*2,|kind: u8|mode: u8"),
    (1, "cases of an enum with numbers that have no names", r"^\s+[A-Z]\w+\((?:u8|\[u8; 8\])(?:, (?:u8|\[u8; 8\]))+\),"),
    (2, "the number of a refusal, once for each enum", r"fn row\(&self\) -> u8"),
    (2, "total, a sum of lengths", r"fn total\("),
    (2, "tables of a fixed size with push, pull and get", r"fn (?:push|pull|get)\(&(?:mut )?self"),
    (2, "what a fresh machine reads after a list", r"pub fn after\("),
    (2, "state calls of a box", r"pub fn (?:doubt|trust|switch_off)\(&self"),
    (2, "what a box answers, with and without the turn", r"enum (?:Outcome|Handled|Answer) \{"),
    (2, "the fault of a call on a box", r"fn (?:off|send|pass|forfeit)_fault\("),
    (2, "tests of an entry's id", r"if id <= last"),
    (3, "a loop over a range that counts an index", r"for \w+ in [^{\n]*\.\.[^{\n]*\{"),
    (3, "a loop with a counter of its own", r"while [^{]*\{|let mut (?:i|place|before|waiting|number|n|all|first|from|to|at)(?:: \w+)? = "),
    (3, "a loop that seeks, counts or sums", r"for \w+ in [^{\n]*\{\s*if [^{]*\{\s*return (?:true|false)|for \w+ in \w+ \{\s*(?:n|all|waiting) \+=|for \(\w+, \w+\) in [^{]*enumerate\(\) \{"),
    (4, "equality by hand", r"fn same\(|fn fields\("),
    (4, "copying by hand", r"fn again\("),
    (4, "conversion by hand", r"pub\(crate\) fn read\(body|\w+ as (?:u|i)(?:8|16|32|64|size)\b"),
    (4, "printing by hand", r"fn \w+(?:_words|_cause|_line|_lines|digits|name)\("),
    (4, "a type with no Debug", r"#\[derive\((?![^)]*Debug)[^)]*\)\]\s*(?:pub(?:\(crate\))? )?(?:struct|enum) \w+|(?<!\)\]\n)^(?:pub(?:\(crate\))? )?(?:struct|enum) \w+"),
    (5, "facts of a table or a log asked of callers", r"requires[^{\n]*\{[^\n]*(?:adds_up|nat_le \S+ room|tables_fit|\.count ≤ room)"),
    (5, "facts of a record asked of callers", r"requires[^{\n]*\{[^\n]*KeepsRules"),
    (5, "facts of a frame or a box number asked of callers", r"requires[^{\n]*\{[^\n]*(?:Lawful frame|to < boxes)"),
    (5, "facts of a head, an azimuth or an order asked of callers", r"requires[^{\n]*\{[^\n]*(?:HeadInRange|azimuth < 36000|2 \^ 24)"),
    (5, "facts of lengths beside entries asked of callers", r"requires[^{\n]*\{[^\n]*sum lengths"),
    (5, "parameters that travel together", r"fn \w+(?:<[^>]*>)?\((?=[^{};]*plan: &Plan)(?=[^{};]*(?:at: u8|bytes: &|lengths: &))[^{};]*?,[^{};]*?,[^{};]*?\)"),
    (6, "a buffer with a length beside it", r"(?:count|decided): u8,|used: usize,|len: usize,"),
    (6, "parallel slices", r"lengths: &[^,]*,\s*(?:pub )?entries: &"),
    (6, "an array of flags for a set", r"\[bool; 256\]|\[false; 256\]"),
    (7, "a switch on which step to run", r"match order\.kind|match outcome"),
]


def blanked(text):
    """The text with comments turned to blanks."""
    return re.sub(r"//[^\n]*", lambda m: " " * len(m.group()), text)


def main():
    words = [w for w in sys.argv[1:] if not w.startswith("--")]
    top = pathlib.Path(words[0] if words else ".")
    files = sorted(top.glob("crates/*/src/**/*.rt"))
    total = {}
    for point, what, pattern in PATTERNS:
        found = []
        for path in files:
            text = blanked(path.read_text())
            for m in re.finditer(pattern, text, re.M):
                line = text.count("\n", 0, m.start()) + 1
                found.append(f"{path.relative_to(top)}:{line}")
        total[point] = total.get(point, 0) + len(found)
        print(f"{point} {len(found):4} {what}")
        if "--list" in sys.argv:
            for f in found:
                print(f"          {f}")
    print("; ".join(f"point {p}: {n}" for p, n in sorted(total.items())))


main()

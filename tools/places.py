"""Lists the places in src/ that today's forms could serve: python3 tools/places.py [COMMIT]

One row a pattern, by the points of docs/DESIGN-PASS.md; with no commit, of the working tree. -v prints the places."""
import re
import subprocess
import sys

PATTERNS = [
    (1, "a yes-or-no field of a struct", r"^\s+(pub(\(crate\))? )?[a-z_]+: bool,$"),
    (1, "a change that answers yes or no", r"fn \w+\(&mut self.*-> bool"),
    (1, "a Result whose error is a number or the value itself", r"Result<[^<>]*(\[bool; 256\])?, (usize|u8|N)>"),
    (1, "a refusal as a number in a struct", r"^\s+(pub )?number: u8,$"),
    (1, "an error matched only to be handed on", r"Err\((fault|index)\) => (return )?Err\("),
    (1, "an Option matched only to be handed on", r"^\s+(return None;|None => (Err\(.*|None|false),?)$"),
    (1, "an Option matched into an error", r"Some\(\w+\) => Err\("),
    (1, "an impossible case with a made-up answer", r"Err\(_\) => measure"),
    (3, "a while over an index", r"^\s+while "),
    (3, "a for over a range", r"^\s+for \w+ in .*\.\."),
    (3, "a for over an enumerate", r"^\s+for \(.* in .*enumerate\(\)"),
    (4, "a conversion as a method or function", r"fn (denial|text_denial|kind_of|line_for|plain|is_second|turn|unladen|part|told)\b"),
    (4, "a value printed field by field", r"println!\(rt; \"(presented|denied|proved|open)"),
    (4, "a blank value written out", r"let nowhere|fn nowhere|^const BLANK"),
    (5, "an offset within its text, in a clause", r"(requires|ensures)( \w+)? \{ .*(at|result) ≤ length text\.now"),
    (5, "a leaf ready for its test, in a clause", r"requires .*Ready \(M"),
    (5, "a van's limits, in a clause", r"van\.ready ≤ 120000|v\.ready ≤ 120000"),
    (5, "a count of records within 2000, in a clause", r"count ≤ 2000"),
    (5, "tables of a case by their lengths, in a clause", r"length places\.old ≡ 61"),
    (5, "a pair of numbers that is always one thing", r"\(u8, u8\)|\(u32, u32\)|\(u16, i64\)|\(u32, Move\)"),
    (5, "a value with the offset after it", r"^\s+pub next: usize,$"),
    (6, "a buffer with a length beside", r"^\s+(pub(\(crate\))? )?len: usize,$"),
    (6, "a table of fixed size", r"= \[[^\]]+; (61|3721|120|PLACES|ROOM|256|60)\];"),
    (6, "sorted entries searched by hand", r"fn (find_ends|end_after|best_value)\b"),
    (7, "a switch on a kind that only picks what is run", r"match (head\.kind|call) \{"),
]


def source(commit):
    where = ["crates/*/src/*.rt"]
    command = ["git", "grep", "-n", "", *([commit] if commit else []), "--", *where]
    out = subprocess.run(command, capture_output=True, text=True, check=True).stdout
    for line in out.splitlines():
        path, number, text = re.match(r"(?:[0-9a-f]{7,40}:)?([^:]+):(\d+):(.*)", line).groups()
        yield path, int(number), text


def main(argv):
    verbose = "-v" in argv
    commits = [a for a in argv if a != "-v"]
    lines = list(source(commits[0] if commits else ""))
    names = [(m.group(1), p, n, t) for p, n, t in lines if (m := re.match(r"\s*(?:pub(?:\(crate\))? )?fn (\w+)", t))]
    impls = "customers place capacity fleet arc words start step at_most read fmt from main new default try_from".split()
    twins = [e for e in names if e[0] not in impls and sum(e[0] == f[0] for f in names) > 1]
    print(f"2  {len(twins):3}  a function whose name stands elsewhere too")
    if verbose:
        for name, path, number, text in sorted(twins):
            print(f"        {path}:{number}: {text.strip()[:110]}")
    for point, name, pattern in PATTERNS:
        found = [(p, n, t) for p, n, t in lines if re.search(pattern, t)]
        print(f"{point}  {len(found):3}  {name}")
        if verbose:
            for path, number, text in found:
                print(f"        {path}:{number}: {text.strip()[:110]}")


main(sys.argv[1:])

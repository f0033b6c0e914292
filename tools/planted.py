#!/usr/bin/env python3
"""Planted bugs: tries them, and writes the page that lists them.

    tools/planted.py try [LIBRARY..]    plants each bug of planted/LIBRARY.txt in a copy of what is committed, one at a time, and notes
                                        what the check says of it; its status is 1 where that is not what was noted before
    tools/planted.py page               writes docs/PLANTED.md

A file planted/LIBRARY.txt has a block for each bug: a file of the library, a line of it or a part of one, the same with the bug in
it, and what the check said. Where it proves, the block has a `note` in place of that, which says why it is no bug.
"""
import pathlib, re, subprocess, sys, tempfile

TOP = pathlib.Path(__file__).resolve().parent.parent
PLANTED = TOP / "planted"


def blocks(library):
    """The bugs of a library, each a dict."""
    text = (PLANTED / f"{library}.txt").read_text()
    return [dict(line.split(": ", 1) for line in block.split("\n") if line) for block in text.split("\n\n") if block.strip()]


def write(library, bugs):
    text = "\n".join("".join(f"{key}: {value}\n" for key, value in bug.items()) for bug in bugs)
    (PLANTED / f"{library}.txt").write_text(text)


def libraries():
    """Those of crates.txt that have planted bugs, in its order."""
    names = [line.split(":")[0].split()[0] for line in (TOP / "crates.txt").read_text().split("\n") if ":" in line and line[0] != "#"]
    return [name for name in names if (PLANTED / f"{name}.txt").exists()]


def tried(library, bugs):
    """What the check says of each bug."""
    with tempfile.TemporaryDirectory() as copy:
        subprocess.run(["git", "clone", "-q", str(TOP), copy], check=True)
        folder = pathlib.Path(copy) / "crates" / library
        (folder / "must-fail").mkdir(exist_ok=True)
        for edit in (folder / "must-fail").iterdir():
            edit.unlink()
        for number, bug in enumerate(bugs):
            lines = "".join(f"{key}: {bug[key]}\n" for key in ("file", "old", "new"))
            (folder / "must-fail" / f"b{number:03}.edit").write_text(lines)
        subprocess.run(["rt", "check"], cwd=folder, stdout=subprocess.DEVNULL, stderr=subprocess.DEVNULL)
        said = subprocess.run(["rt", "must-fail", library], cwd=folder, stdout=subprocess.PIPE, text=True).stdout
    found = re.findall(r"must-fail \S*/b(\d+)\.edit: (.*)", said)
    return {int(number): text for number, text in found}


def refused_by(said):
    """What refused a bug, for the page: at the code, and else at a step of a proof."""
    note = re.match(r"(?:note: )?(src/\S+?):\d+:\d+: (?:error: )?it is not proved that (.*?)(?: \(`([^`]*)`\))?(?:;.*)?$", said)
    if note:
        return f"`{note[1]}`: {note[2]}" + (f" (`{note[3]}`)" if note[3] else "")
    search = re.match(r"(?:note: )?(src/\S+?):\d+:\d+: `search` found no proof \(`([^`]*)`\)", said)
    if search:
        return f"`{search[1]}`: `{search[2]}`"
    proof = re.match(r"(?:note: )?(?:\./)?((?:proofs|specs|src)/\S+?):\d+:\d+: (?:error: )?(?:`([^`]*)`)?", said)
    if proof:
        return (f"`{proof[2]}`, in " if proof[2] else "") + f"`{proof[1]}`"
    return said[:80]


def at_code(bug):
    return re.match(r"(note: )?(\./)?src/", bug["said"]) is not None


def code(line):
    return "`" + line.strip().replace("|", "\\|") + "`"


def page():
    out = [HEAD]
    rows, sums = [], [0, 0, 0, 0]
    for library in libraries():
        bugs = blocks(library)
        refused = [bug for bug in bugs if "said" in bug]
        code_first = sum(at_code(bug) for bug in refused)
        edits = len(list((TOP / "crates" / library / "must-fail").glob("*.edit")))
        counts = (code_first, len(refused) - code_first, len(bugs) - len(refused), edits)
        rows.append(f"| [`{library}`](#{library}) | " + " | ".join(map(str, counts)) + " |")
        sums = [a + b for a, b in zip(sums, counts)]
    rows.append("| all | " + " | ".join(map(str, sums)) + " |")
    out.append("| library | refused at the code | refused at a step of a proof | proved, and no bug | must-fail edits besides |\n|---|---|---|---|---|\n" + "\n".join(rows) + "\n")
    for library in libraries():
        out.append(f"\n## {library}\n\n| file | line | with the bug | refused by |\n|---|---|---|---|")
        for bug in blocks(library):
            verdict = refused_by(bug["said"]) if "said" in bug else "proved: " + bug["note"]
            out.append(f"| `{bug['file']}` | {code(bug['old'])} | {code(bug['new'])} | {verdict} |")
    (TOP / "docs" / "PLANTED.md").write_text("\n".join(out) + "\n")


HEAD = """# Planted bugs

What a contract is worth shows where a body is wrong. So each library had bugs planted in it, one at a time, of the kinds that keep
the shape of the code: a `<` for a `<=`, a test left out or turned round, an operand, a constant, an index or a limit changed, two
operands exchanged, a write left out, another case. The check refused each of them, but for those that mean the same as the code that
they replace. A row has the line, the line with the bug, and the first thing that the check then no longer proves.

Most are refused at the code: what a clause of a contract says, what a callee requires, a loop's invariant, an index or a difference in
range. Where a row names a file of `proofs/`, a step of the proof that stands there does not fit the changed code any more; that no
other proof could is not shown by it. Bugs that the compiler refuses, and those that only take away a name that a proof file cites,
are not counted.

Libraries without code of their own, only with definitions and theorems (`derivations`, `events`, `trials`), had theirs planted in the
definitions: their proofs refuse them.

The bugs stand in `planted/`, and `tools/planted.py try` plants them again (an hour of four processors, so that the gate does not do
it); `tools/planted.py page` writes this page. The ones that tell most are kept as must-fail edits, which the gate tries:
[PROMISES.md](PROMISES.md) names each of them.
"""

if __name__ == "__main__":
    if sys.argv[1:2] == ["try"]:
        loose = 0
        for library in sys.argv[2:] or libraries():
            bugs = blocks(library)
            verdicts = tried(library, bugs)
            for number, bug in enumerate(bugs):
                text = verdicts.get(number, "the check said nothing of it")
                refused = re.match(r"refused, as it must be: (.*)", text)
                bug.pop("said", None)
                if refused:
                    bug["said"] = refused[1]
                if bool(refused) == ("note" in bug):
                    print(f"{library}: {bug['new'].strip()}: {text}")
                    loose += 1
            write(library, bugs)
        sys.exit(loose > 0)
    elif sys.argv[1:2] == ["page"]:
        page()
    else:
        sys.exit(__doc__)

#!/usr/bin/env python3
"""Spells the names that this repository declares as today's Rattle spells names: words in snake case.

usage: tools/respell.py        once, at the top of the repository, after /opt/rattle/port/port.py

It reads each name that a file of crates/*/specs/ or crates/*/proofs/ declares. Types and modules keep their spelling; every other name with a
capital or a dash gets plain underscores. A lemma that would then be called as a function in some file gets `_lem` after its name. It then lets the
kit's snake.py turn these names in antt files, in clauses, and in code spans of pages, and turns them in must-fail edits itself.
Names of Rust functions, exported C names and strings stay as they are.
"""

import glob
import os
import re
import subprocess
import sys
import tempfile

SNAKE = "/opt/rattle/port/notes/2026-11-18-names-are-in-snake-case/snake.py"
NAME = r"[^\s(){}.;,@\"«»]+"
DECLARED = re.compile(rf"^ *(?:(?:abbrev|pub|unfoldable|ruleset) +)*({NAME})(?: \{{[^{{}}\n]*\}}| \([^()\n]*\))* (?::|=)(?= |$)", re.M)
COMMENT = re.compile(r"(?<![^\s(){}.;,@\"])--[^\n]*")
# Names that port.py has turned already, as libraries had the same spelling: pages and edits still have the old ones.
TURNED = """add-spec all-runs andThen answerOf at-inner at-most at-room at-slot at-split at-test atEntry b-rest block-at by-code by-tests byte-cut
byte-high byte-low byte-past byteAt byteOf bytes-below code-fits code-is codeOf countOf counts-past done-refused doneOf end-is end-short
end-whole endAt endIn endOf enter-spec entryAt entryRows every-get every-set fill-spec filled-next filled-none first-to firstOf fits-byte
fits-next fits-not in-order in-place in-repeat in-split in-table inSlot is-cut is-whole isWhole isZero join-more kept-step kindAt laid-out
le-of look-bytes more-same n-repeat near-first needOf no-byte no-place no-row no-slot node-at-spec node-by nodeOf none-before none-done
none-has not-T not-test ofCode one-answer one-at-most one-set orElse passed-none place-at place-short placeIn programOf put-other put-same
put-spec read-back read-next read-step readBy reads-first reads-second right-by right-of round-trip rowsOf same-not same-over same-rest
same-test same-view seen-all seen-here seen-next seen-none slot-ok slot-read some-bytes start-back start-is startOf step-is step-same
step-spec stepOf t-repeat table-at table-none tallyOf testOf then-is then-same viewOf was-read whole-of withLast written-is
zero-test""".split()
# Names that the rule does not suit: a library's word inside one, for which the library has another today, and a lemma beside the function isCut.
OTHERS = {"getD-same": "get_or_same", "true-T": "true_T", "is_cut": "is_cut_lem", "is-cut": "is_cut_lem"}


def in_snake_case(name):
    if name in OTHERS:
        return OTHERS[name]
    if name[0].isupper():
        return name
    return re.sub(r"(?<=[a-z0-9])[A-Z]", lambda m: "_" + m[0].lower(), name).replace("-", "_")


def declared():
    names = set()
    for path in sorted(glob.glob("crates/*/specs/*.antt") + glob.glob("crates/*/proofs/*.antt")):
        with open(path, encoding="utf-8") as f:
            names.update(DECLARED.findall(COMMENT.sub("", f.read())))
    return names


def words_of_files():
    for path in glob.glob("crates/**/*.antt", recursive=True) + glob.glob("crates/**/*.rt", recursive=True):
        with open(path, encoding="utf-8") as f:
            yield set(re.findall(NAME, f.read()))


def table():
    names, files = declared(), list(words_of_files())
    rivals = lambda n: {m for m in names if m != n and in_snake_case(m) == in_snake_case(n)}
    meets = lambda n: any(n in words and words & rivals(n) for words in files)
    new = {n: in_snake_case(n) + ("_lem" if "-" in n and meets(n) else "") for n in names}
    rows = {old: to for old, to in new.items() if old != to}
    if len(set(new.values())) != len(new):
        twice = sorted(n for n in new if list(new.values()).count(new[n]) > 1)
        print("look: spelled alike now, in files apart: " + ", ".join(f"{n} -> {new[n]}" for n in twice))
    return rows


def main():
    if not os.path.isdir("crates"):
        sys.exit("respell: run it at the top of the repository")
    rows = table()
    with tempfile.NamedTemporaryFile("w", suffix=".tsv", encoding="utf-8", delete=False) as f:
        f.writelines(f"{old}\t{new}\n" for old, new in sorted(rows.items()))
    pages = {**{n: in_snake_case(n) for n in TURNED}, **rows}
    with tempfile.NamedTemporaryFile("w", suffix=".tsv", encoding="utf-8", delete=False) as g:
        g.writelines(f"{old}\t{new}\n" for old, new in sorted(pages.items()))
    subprocess.run([sys.executable, SNAKE, "--table", f.name, "--only", "antt,rt", "--prose", "none", "crates"], check=True)
    subprocess.run([sys.executable, SNAKE, "--table", g.name, "--only", "md", "README.md", "docs"], check=True)
    word = re.compile(NAME)
    for path in glob.glob("crates/*/must-fail/*.edit"):
        with open(path, encoding="utf-8") as f:
            text = f.read()
        turned = re.sub(r"(?m)^(?:old|new): .*$", lambda m: word.sub(lambda w: pages.get(w[0], w[0]), m[0]), text)
        with open(path, "w", encoding="utf-8") as f:
            f.write(turned)
    for crate in sorted(glob.glob("crates/*/")):
        subprocess.run(["rt", "fmt"], cwd=crate, stdout=subprocess.DEVNULL)
    print(f"respell: {len(rows)} names")


if __name__ == "__main__":
    main()

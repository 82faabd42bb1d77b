#!/usr/bin/env python3
"""Contracts of functions and definitions of specs/ at two revisions, side by side.

    docs/notes/side_by_side.py BEFORE AFTER [docs/notes/names.tsv]

Spelling that is known to mean the same is made one first: white space, comments, imports, the table of names (old TAB
new), std's words for the same words of a library below it, and `if` for `cond`. What still differs is printed, old
lines with '-', new ones with '+', to be read; the last line counts. Parentheses aren't compared, and of definitions
with one name in two files of a crate only the last is: it shows where to look and proves nothing.
"""
import collections
import difflib
import re
import subprocess
import sys

WORDS = {"eqb": "nat_eq", "leb": "nat_le", "ltb": "nat_lt", "So": "IsTrue"}
TOKEN = re.compile(r"[^\s(){}\[\],;.]+|[(){}\[\],;.]")


def git(*words):
    return subprocess.run(["git", *words], check=True, capture_output=True, text=True).stdout


def files(revision):
    listed = git("ls-tree", "-r", "--name-only", revision).split("\n")
    return [p for p in listed if re.match(r"crates/[^/]+/(specs/.*\.antt|src/.*\.rt)$", p)]


def without_comments(text, mark):
    return re.sub(r"(^|\s)" + mark + r"(?:\s.*)?$", "", text, flags=re.M)


def definitions(text):
    """name -> text of each definition of a file of specs/, in one line"""
    found = collections.OrderedDict()
    name = None
    for line in without_comments(text, "--").split("\n"):
        head = re.match(r"(?:(?:abbrev|unfoldable|pub|record|data|infix) )*([^\s:(){}]+)", line)
        if not line.strip() or line.startswith(("use ", "pub use ", "mod ", "pub mod ")) or line.startswith("}"):
            continue
        if not line[0].isspace() and head and head.group(1) not in ("unfolding", "module"):
            name = head.group(1)
        if name and not line.startswith("unfolding"):
            found[name] = found.get(name, "") + " " + line.strip()
    return found


def contracts(text):
    """signature and clauses of each function of a file of src/, without its body"""
    found = collections.OrderedDict()
    text = without_comments(text, "//+!?")
    for head in re.finditer(r"^( *)((?:pub(?:\(crate\))? )?(?:const )?(?:extern \"C\" )?fn (\w+))", text, re.M):
        end = re.search(r"^" + head.group(1) + r"(?:\{|.*\{ *\}$)|^" + head.group(1) + r"\}", text[head.start() :], re.M)
        body = text[head.start() : head.start() + (end.start() if end and end.start() > 0 else len(text))]
        found[head.group(3)] = " ".join(body.split())
    return found


def prefix_conditions(words):
    """`if a then b else c` as `cond a b c`, so that both spellings read alike"""
    return [w for w in (None if w in ("then", "else") else "cond" if w == "if" else w for w in words) if w]


def spelled(text, names):
    words = [names.get(w, WORDS.get(w, w)) for w in TOKEN.findall(text)]
    return [w for w in prefix_conditions(words) if w not in "()"]


def entries(revision):
    found = collections.OrderedDict()
    for path in files(revision):
        text = git("show", f"{revision}:{path}")
        parts = contracts(text) if path.endswith(".rt") else definitions(text)
        for name, part in parts.items():
            crate = path.split("/")[1].replace("demands", "promises")
            found[(crate, "fn" if path.endswith(".rt") else "spec", name)] = part
    return found


def main():
    before, after = entries(sys.argv[1]), entries(sys.argv[2])
    names = {}
    if len(sys.argv) > 3:
        names = dict(line.rstrip("\n").split("\t")[-2:] for line in open(sys.argv[3], encoding="utf-8") if "\t" in line)
    renamed = {(c, k, names.get(n, n)): t for (c, k, n), t in before.items()}
    same = differ = 0
    for key in sorted(set(renamed) | set(after)):
        old, new = renamed.get(key), after.get(key)
        if old is not None and new is not None and spelled(old, names) == spelled(new, names):
            same += 1
            continue
        differ += 1
        print("==", *key)
        show = lambda t: [] if t is None else re.sub(r" (?=(?:ensures|requires|×|→|\S+ [^=]* = ))", "\n", t).split("\n")
        for line in difflib.ndiff(show(old), show(new)):
            if line[0] in "-+":
                print(line)
    print(f"{same} alike, {differ} to be read")


main()

#!/usr/bin/env python3
"""Spells the definitions and lemmas of crates/ in snake case, as today's Rattle does: `samplesAt` is `samples_at`, `and-taken` is `and_taken`.

usage: tools/port_names.py [--check]    at the top of the repository, after the kit's port.py and before any edit by hand

What turns: each name that a file of specs/ or proofs/ declares, wherever code of antt has it: in those files, in the clauses and the `ghost use` lines of .rt files, and in
the texts of must-fail edits. What stays: functions of src/, names that Rattle makes (a word after a dot, but for the fields of this repository's own records and what stands
behind a module), and a name that a file takes from a library. Where two names would fall together, the lemma gets `_law` at its end: see LAWS.
--check writes nothing and lists the names that would meet another one in some file.
"""

import collections
import os
import re
import sys

WORD = re.compile(r"[^\s(){}.;,@\"«»]+")
DECLARED = re.compile(r"^(\s*)((?:pub |abbrev |unfoldable )*)([^\s(){}.;,@\"«»:]+)((?: \{[^{}\n]*\})*) :(?=\s|$)", re.M)
RECORD = re.compile(r"^(\s*)(?:pub )?record\b.*\bwhere$")
USED = re.compile(r"\buse ([^\s;{]+?)\.\{([^}]*)\}")
CLAUSE = re.compile(r"\b(?:requires|ensures)\*?(?:\s+\w+)?\s*\{|\bghost\s+\w+\s*:\s*\{")

# Lemmas that would fall together with a definition, or with another lemma of another meaning.
LAWS = """accepted-text bad-length by-sizes byte-by cell-count cell_in cell-shown colours-run coords-run corner-at diagonal-span ends-run filled_at flipped-at in-range in-row is_below is-nought
linear-at match-map or-else refused-text root-at row-found row_made sample-after sample-at sample-shown samples-after side-span some_of is-nan nan-bits sum-size whole-of-bits zero-of by_value in_bounds""".split()
# Of these, the ones that are spelled like a function of src/ or a definition elsewhere: they turn only in the files that declare or import the lemma.
SHARED = {"cell_in", "filled_at", "is_below", "row_made", "some_of", "by_value", "in_bounds"}
# A proposition is in camel case; it too turns only where it is declared or imported.
TYPES = {"finite": "IsFinite"}


def snake(name):
    return re.sub(r"(?<=[a-z0-9])([A-Z])", lambda m: "_" + m[1].lower(), name).replace("-", "_")


def files(root):
    for folder, below, names in os.walk(os.path.join(root, "crates")):
        below[:] = sorted(b for b in below if b != "out")
        for n in sorted(names):
            if n.endswith((".antt", ".rt", ".edit")):
                yield os.path.join(folder, n)


def fields_of(text):
    """The fields of the records that a page declares."""
    depth = None
    for line in text.split("\n"):
        m = RECORD.match(line)
        if m:
            depth = len(m[1])
            continue
        if depth is not None and line.strip():
            if len(line) - len(line.lstrip()) <= depth:
                depth = None
            else:
                d = DECLARED.match(line)
                if d:
                    yield d[3]


def from_libraries(text):
    """The names that a page takes from a library."""
    for path, names in USED.findall(text):
        if not OWN.match(path):
            for n in names.split(","):
                yield n.split(" as ")[-1].strip()


class Turn:
    def __init__(self, root):
        global OWN
        crates = [c for c in os.listdir(os.path.join(root, "crates"))]
        OWN = re.compile(r"Rattle\.(%s)\b" % "|".join(crates))
        self.texts = {p: open(p, encoding="utf-8").read() for p in files(root)}
        self.table = {}
        self.fields = set()
        self.homes = collections.defaultdict(set)
        for p, t in self.texts.items():
            if not p.endswith(".antt"):
                continue
            for m in DECLARED.finditer(t):
                n = m[3]
                self.homes[n].add(p)
                if n[:1].islower() or "-" in n:
                    new = snake(n) if n[:1].islower() else n.replace("-", "_")
                    self.table[n] = new
            self.fields |= set(fields_of(t))
        for n in LAWS:
            self.table[n] = snake(n) + "_law"
        self.table |= TYPES
        self.table = {n: new for n, new in self.table.items() if n != new}

    def new_name(self, word, behind, page):
        """What a word of a page becomes; behind is what stands before its dot, or None."""
        new = self.table.get(word)
        if word in page["aliases"] and behind is None:
            return snake(word)
        if new is None or word in page["libraries"]:
            return word
        if behind is not None and not (behind[:1].isupper() or behind in page["modules"] or word in self.fields):
            return word
        if (word in SHARED or word in TYPES) and (behind is not None or not page["shared"](word)):
            return word
        return new

    def words(self, code, page):
        out, at = [], 0
        for m in WORD.finditer(code):
            behind = None
            if m.start() and code[m.start() - 1] == ".":
                b = re.search(r"([^\s(){}.;,@\"«»]*)\.$", code[: m.start()])
                behind = b[1] if b else ""
            out += [code[at : m.start()], self.new_name(m[0], behind, page)]
            at = m.end()
        return "".join(out) + code[at:]

    def antt(self, text, page):
        lines = []
        code = "\n".join(l.split("-- ")[0] for l in text.split("\n"))
        inside = set(WORD.findall(code))
        inside |= {self.table[w] for w in inside if w in self.table}
        for line in text.split("\n"):
            at = 0 if line.startswith("--") else line.find(" -- ")
            if at < 0:
                lines.append(self.words(line, page))
                continue
            said = WORD.sub(lambda m: self.said(m[0], inside, page), line[at:])
            lines.append(self.words(line[:at], page) + said)
        return "\n".join(lines)

    def said(self, word, inside, page):
        bare = word.strip("`:")
        if "-" in bare and bare not in inside and snake(bare) in inside and snake(bare) in page["declared"]:
            return word.replace(bare, snake(bare))
        if bare in inside and ("-" in bare or bare != bare.lower()) and self.table.get(bare) and bare not in page["libraries"]:
            return word.replace(bare, self.table[bare])
        return word

    def rt(self, text, page):
        spans = [m.span() for m in re.finditer(r"\bghost use [^;]*;", text)]
        for m in CLAUSE.finditer(text):
            depth, at = 1, m.end()
            while depth and at < len(text):
                depth += {"{": 1, "}": -1}.get(text[at], 0)
                at += 1
            spans.append((m.end(), at))
        for a, b in sorted(spans, reverse=True):
            text = text[:a] + self.words(text[a:b], page) + text[b:]
        return text

    def edit(self, text, page):
        kind = "antt" if re.search(r"^file: \S+\.antt$", text, re.M) else "rt"
        lines = []
        for line in text.split("\n"):
            m = re.match(r"(old|new): (.*)$", line)
            if m and (kind == "antt" or re.match(r"\s*(requires|ensures|ghost)", m[2])):
                line = m[1] + ": " + self.words(m[2], page)
            lines.append(line)
        return "\n".join(lines)

    def page(self, p, t):
        imported = {n.split(" as ")[0].strip() for path, names in USED.findall(t) if OWN.match(path) and ".proofs." in path for n in names.split(",")}
        return {
            "libraries": set(from_libraries(t)),
            "declared": {self.table.get(m[3], m[3]) for m in DECLARED.finditer(t)} | {m[3] for m in DECLARED.finditer(t)},
            "aliases": {a for a in re.findall(r"^use \S+ as (\S+)$", t, re.M) if "-" in a},
            "modules": {a for path, a in re.findall(r"\buse (\S+) as ([^\s;]+)", t) if OWN.match(path)},
            "shared": lambda w: p in self.homes[w] and "/proofs/" in p or w in imported,
        }

    def bare(self, text, p):
        """The words of a page's code that stand behind no dot."""
        if p.endswith(".rt"):
            text = "\n".join(re.findall(r"\bghost use [^;]*;|\b(?:requires|ensures)\b.*", text))
        code = "\n".join("" if l.startswith("--") else l.split(" -- ")[0] for l in text.split("\n"))
        return {m[0] for m in WORD.finditer(code) if not (m.start() and code[m.start() - 1] == ".")}

    def run(self, check):
        met = []
        for p, t in self.texts.items():
            page = self.page(p, t)
            new = getattr(self, p.rsplit(".", 1)[1])(t, page)
            if new == t:
                continue
            before = self.bare(t, p)
            for w in sorted(set(WORD.findall(t)) - set(WORD.findall(new))):
                if self.table.get(w) in before:
                    met.append(f"{p}: {w} meets {self.table[w]}")
            if not check:
                with open(p, "w", encoding="utf-8") as f:
                    f.write(new)
        print("\n".join(met))
        print(f"port_names: {len(self.table)} names, {len(met)} that meet another")


if __name__ == "__main__":
    Turn(".").run("--check" in sys.argv[1:])

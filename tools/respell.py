#!/usr/bin/env python3
"""Brings the repository's own words to the spelling of today's Rattle: words in snake case, no dash and no hump.

usage: tools/respell.py        at the top of the repository, once, right behind the kit's port.py

It takes every definition, lemma and field that an .antt file of specs/ or proofs/ declares with a dash or a hump in
its name, and writes the name with underscores in each .antt file, in the ghost lines of each .rt file and in each edit. What a
library declares, what a source file declares and what the check itself names keep their spelling; so does a name whose new form
would fall together with another one in a file. Those are printed. Names with a middle dot become names with an underscore.
"""
import collections
import os
import re
import sys

TOKEN = re.compile(r"[^\s(){}\[\],;.@\"|]+")
OWN_NEED = re.compile(r"^\s*(?:(?:pub|abbrev|unfoldable) +)*([^\s:]+) : tie\.")
# Where a name would fall together with another one.
APART = {"inOne": "read_in_one", "data-mode": "data_mode_of"}
# Lemmas that port.py gave the spelling that their definition gets now.
LEMMAS = {word: word + "_lem" for word in ("in_pairs", "is_known", "put_low", "refused_as", "met_at")}
IMPORT = re.compile(r"^\s*(?:ghost )?(?:pub )?use ([^\s{;]+?)(?:\.\{(.*)\})?(?: as (\S+?))?;?\s*$")
SNAKE = re.compile(r"(?<=[a-z0-9])([A-Z])|(?<=[A-Z])([A-Z])(?=[a-z])")


def files(kind):
    for top, dirs, names in os.walk("crates"):
        dirs[:] = sorted(d for d in dirs if d not in ("out", "target"))
        for name in sorted(names):
            if name.endswith(kind):
                yield os.path.join(top, name)


def read(path):
    with open(path, encoding="utf-8") as f:
        return f.read()


def code(line):
    """The line without its comment."""
    at = line.find("-- ")
    if line.strip() == "--":
        return ""
    return line if at < 0 else line[:at]


def snake(name):
    words = name.replace("·", "_").replace("-", "_")
    return SNAKE.sub(lambda m: "_" + m.group(0).lower(), words)


def worth(name):
    # A name with a small first letter, since types, facts and modules keep their capitals, and dashes in any.
    if name.startswith("-") or name in ("-", "->") or "◌" in name or "→" in name:
        return False
    if "-" in name and re.match(r"^[A-Za-zμ+]", name):
        return True
    return bool(re.match(r"^[a-z].*[a-z0-9][A-Z]", name))


def declared():
    own, needs = collections.defaultdict(set), collections.defaultdict(set)
    for path in files(".antt"):
        for line in read(path).split("\n"):
            bare = code(line)
            m = re.match(r"^\s*(?:(?:pub|abbrev|unfoldable|opaque) +)*((?:[^\s:(){}\[\],;.]+ +)*[^\s:(){}\[\],;.]+) :(?:\s|$)", bare)
            names = m.group(1).split() if m else []
            m = re.match(r"^\s*(?:(?:pub|abbrev|unfoldable) +)*(?:record|data) +(?:pub +)?([^\s:(){}\[\],;.]+)", bare)
            names += [m.group(1)] if m else []
            m = IMPORT.match(line)
            names += [w.split(" as ")[1].strip() for w in (m.group(2) or "").split(",") if " as " in w] if m else []
            m = OWN_NEED.match(bare)
            if m:
                needs[path].add(m.group(1))
                continue
            for name in names:
                own[name].add(path)
    return own, needs


def libraries():
    """The words that files take from a library, of which none is the repository's."""
    mine = {line.split(":")[0].split()[0] for line in open("crates.txt") if line.strip() and not line.startswith("#")}
    found = set()
    for kind in (".antt", ".rt"):
        for path in files(kind):
            for line in read(path).split("\n"):
                m = IMPORT.match(line)
                if not m:
                    continue
                parts = m.group(1).split(".")
                if parts[0] == "Rattle" and len(parts) > 2 and parts[1] in mine and parts[2] in ("specs", "proofs"):
                    # The check writes these: a function's goals, and what a source file declares.
                    if not ("Goals" in parts or "Tie" in parts or "declared" in parts or "contracts" in parts):
                        continue
                for word in (m.group(2) or "").split(","):
                    found.add(word.strip().split(" as ")[0])
    return found


def main():
    own, needs = declared()
    library = libraries()
    new = {}
    for name in own:
        if worth(name) and name not in library:
            new[name] = snake(name)
    new.update({name: to for name, to in APART.items() if name in new})
    # Two names that would become one, or one that is there already in the same file: the lemma, which had the dash, says so.
    back = collections.defaultdict(set)
    for name, to in new.items():
        back[to].add(name)
    texts = {p: read(p) for kind in (".antt", ".rt", ".edit") for p in files(kind)}
    words = {p: set(TOKEN.findall("\n".join(code(l) if p.endswith(".antt") else l for l in t.split("\n")))) for p, t in texts.items()}
    for to, names in sorted(back.items()):
        for p, here in sorted(words.items()):
            there = sorted(n for n in names if n in here)
            if (len(there) > 1 or there and to in here) and p.endswith(".antt") and "/specs/" in p and not any(n in APART for n in there) and to not in LEMMAS:
                dashed = [n for n in there if "-" in n]
                print(f"apart: {p}: {' and '.join(there)} would be {to}" + (f", so the lemma is {to}_lem" if dashed else ": NOT MENDED"))
                for name in dashed:
                    new[name] = to + "_lem"
    dotted = set()
    changed = 0
    for p, text in texts.items():
        lines = text.split("\n")
        for i, line in enumerate(lines):
            if p.endswith(".rt") and not ghost(lines, i):
                continue
            lines[i] = turned(line, new, needs[p], dotted, p)
        after = "\n".join(lines)
        if after != text:
            changed += 1
            with open(p, "w", encoding="utf-8") as f:
                f.write(after)
    for name in sorted(new):
        print(f"{name} {new[name]}")
    for name in sorted(dotted):
        print(f"{name} {name.replace('·', '_').lower()}")
    print(f"respelled: {len(new)} names in {changed} files", file=sys.stderr)


def ghost(lines, i):
    """Whether the line of a source file is a clause, a ghost line or a comment."""
    line = lines[i].strip()
    if line.startswith(("ghost ", "requires", "ensures", "//", "#[tactic", "#![tactic")):
        return True
    # A clause of several lines ends where its brace does.
    for back in range(i - 1, max(i - 12, -1), -1):
        above = lines[back].strip()
        if above.startswith(("requires", "ensures", "ghost ")):
            open_braces = sum(l.count("{") - l.count("}") for l in lines[back:i])
            return open_braces > 0
    return False


def turned(line, new, own_needs, dotted, path):
    def one(m):
        word = m.group(0)
        if path.endswith(".antt") and word in own_needs:
            return word
        if word in LEMMAS and path.endswith(".antt") and not line[: m.start()].endswith("."):
            return LEMMAS[word]
        if "·" in word and re.match(r"^[A-Za-z]\w*·\w+$", word):
            dotted.add(word)
            return word.replace("·", "_").lower()
        if word in new:
            before = line[: m.start()]
            # A field of what the check makes: its names are none of these.
            if before.endswith(("tie.", "c.", ".before.")) and "-" in word:
                return word
            return new[word]
        # In a comment a name stands between backticks, or behind a module.
        return word

    if path.endswith(".antt"):
        at = line.find("-- ")
        if at >= 0:
            return TOKEN.sub(one, line[:at]) + re.sub(r"`[^`]*`", lambda m: TOKEN.sub(lambda t: new.get(t.group(0), t.group(0)), m.group(0)[1:-1]).join("``"), line[at:])
    return TOKEN.sub(one, line)


main()

#!/usr/bin/env python3
"""Spells the repository's own definitions and lemmas as today's Rattle does: words in snake case. Run once, after port.py, at the top.

A word that a file imports from a library, or from a module that Rattle makes of the sources, keeps its spelling; so does a word that begins with a
capital, and every name of src/ itself. Where a definition and a lemma of one file would fall together, the lemma ends in _lem; each such pair is printed.
"""
import collections
import glob
import os
import re
import sys

NAME = r"[^\s(){}.;,@\"«»]+"
TOKEN = re.compile(r"--[^\n]*|\{-.*?-\}|\"(?:[^\"\\\n]|\\.)*\"|«[^»]*»|" + NAME, re.S)
USE = re.compile(r"(?m)^(?P<head>\s*(?:ghost |pub )*use )(?P<path>[^\s{};]+?)(?P<list>\.\{[^}]*\})?(?: as (?P<new>[^\s;]+))?;?$")
PLAIN = re.compile(r"[a-z][A-Za-z0-9]*(?:[-_][A-Za-z0-9]+)*['₀-₉]*$")
MADE = re.compile(r"\.(declared|contracts)(\.|$)|\.(Tie|Statement|Goals|Given|Reads|Kinds|Code|Met|Proof)$|\.Lts[^.]*$")
GENERATED = re.compile(r"^(c|l|tie|goal|w)$")


def snake(word):
    tail = re.search(r"['₀-₉]*$", word)[0]
    stem = word[: len(word) - len(tail)]
    stem = re.sub(r"(?<=[a-z0-9])(?=[A-Z])", "_", stem)
    return stem.lower().replace("-", "_") + tail


def wants(word):
    return bool(PLAIN.match(word)) and snake(word) != word


def is_own(path, own):
    parts = path.split(".")
    return parts[0] == "Rattle" and len(parts) > 1 and parts[1] in own and not MADE.search(path)


def imports(text, own):
    """The words that the file has from a library or a made module, and the spans of its use lines."""
    foreign, spans = set(), []
    for it in USE.finditer(text):
        spans.append((it.start(), it.end(), it))
        if not is_own(it["path"], own):
            for word in re.findall(NAME, it["list"] or ""):
                foreign.add(word)
    return foreign, spans


def fields_of(texts):
    """The fields of the repository's own records, which stand behind a dot."""
    found = set()
    for text in texts:
        for it in re.finditer(r"(?m)^(\s*)(?:abbrev |pub |data )*record [^\n]*where\n((?:\1\s+[^\n]*\n|\s*\n)+)", text):
            found |= set(re.findall(r"(?m)^\s+(?:pub )?(" + NAME + r") :", it[2]))
    return found


def turned(text, own, fields, lemmas, declared, path):
    foreign, spans = imports(text, own)
    walk = "/proofs/" in path and os.path.basename(path) in ("Proof.antt",)
    out, at, seen = [], 0, collections.defaultdict(set)
    use_at = {}
    for a, b, it in spans:
        use_at[a] = (b, it)
    starts = sorted(use_at)

    def word(m, dotted, root):
        w = m
        if w.startswith(("--", "{-", '"', "«")):
            return w
        if w in foreign or not (wants(w) or w in lemmas):
            if not dotted:
                seen[w].add(w)
            return w
        new = lemmas.get(w) or snake(w)
        if dotted:
            return new if w in fields or (w in declared and wants(w) and root not in MADE_ROOTS) else w
        if walk and w not in declared:
            return w
        seen[new].add(w)
        return new

    MADE_ROOTS = {"tie", "goal", "c", "l", "w"} | {
        it["new"] for _, _, it in spans if it["new"] and not is_own(it["path"], own)
    }

    def part(s):
        res, pos, root = [], 0, None
        for m in TOKEN.finditer(s):
            dotted = m.start() > 0 and s[m.start() - 1] == "." and m.start() > 1 and not s[m.start() - 2].isspace()
            if not dotted:
                root = m[0]
            res.append(s[pos : m.start()])
            res.append(word(m[0], dotted, root))
            pos = m.end()
        res.append(s[pos:])
        return "".join(res)

    for a in starts:
        b, it = use_at[a]
        out.append(part(text[at:a]))
        line = text[a:b]
        if it["list"] and is_own(it["path"], own):
            i = line.index("{")
            line = line[:i] + re.sub(NAME, lambda m: word(m[0], False, None), line[i:])
        out.append(line)
        at = b
    out.append(part(text[at:]))
    return "".join(out), {k: v for k, v in seen.items() if len(v) > 1}


def declared_in(text):
    found = set()
    for m in re.finditer(r"(?m)^\s*(?:(?:abbrev|unfoldable|data|record|pub|private|ruleset|mutual|module) )*(" + NAME + r")(?: [^\n:]*)? :(?:\s|$)", text):
        found.add(m[1])
    for m in re.finditer(r"(?m)^\s*\| (" + NAME + r") :", text):
        found.add(m[1])
    return found


def sources(text, table):
    """A .rt file: its ghost imports, its clauses and ghost items."""
    def clause(m):
        return re.sub(NAME, lambda w: table.get(w[0], w[0]) if wants(w[0]) else w[0], m)

    out = []
    for line in text.split("\n"):
        bare = line.lstrip()
        if bare.startswith("//"):
            line = re.sub(r"`[^`]*`", lambda m: re.sub(NAME.replace('"', '"`'), lambda w: table.get(w[0], w[0]), m[0]), line)
        elif bare.startswith("ghost use") or re.match(r"(requires|ensures|ghost|decreases|invariant)\b", bare) or "≡" in line or "→" in line or "λ" in line:
            line = clause(line)
        out.append(line)
    return "\n".join(out)


def main():
    own = sorted(os.listdir("crates"))
    paths = [p for p in glob.glob("crates/*/specs/**/*.antt", recursive=True) + glob.glob("crates/*/proofs/**/*.antt", recursive=True)]
    texts = {p: open(p, encoding="utf-8").read() for p in paths}
    shared = [p for p in paths if os.path.basename(p) != "Proof.antt"]
    declared = set()
    for p in shared:
        declared |= declared_in(texts[p])
    fields = {w for w in fields_of(texts[p] for p in shared) if wants(w)}
    lemmas = {}
    for _ in range(6):
        falls = collections.defaultdict(set)
        for p in paths:
            _, bad = turned(texts[p], own, fields, lemmas, declared, p)
            for new, olds in bad.items():
                falls[new] |= olds
        for new, olds in sorted(falls.items()):
            named = sorted(olds, key=lambda w: (not re.search("[A-Z]", w), "-" in w))
            print("falls together:", new, named, file=sys.stderr)
            lemmas |= {w: new + "_lem" for w in named[1:]}
        if not falls:
            break
    table = {w: lemmas.get(w) or snake(w) for w in declared | fields if wants(w)}
    for p in paths:
        new, _ = turned(texts[p], own, fields, lemmas, declared, p)
        if new != texts[p]:
            open(p, "w", encoding="utf-8").write(new)
    for p in glob.glob("crates/*/src/**/*.rt", recursive=True):
        text = open(p, encoding="utf-8").read()
        new = sources(text, table)
        if new != text:
            open(p, "w", encoding="utf-8").write(new)
    for p in glob.glob("crates/*/must-fail/*.edit"):
        text = open(p, encoding="utf-8").read()
        if re.search(r"(?m)^file: (specs|proofs)/", text):
            new = re.sub(r"(?m)^(old|new): .*$", lambda m: re.sub(r"\"[^\"]*\"|" + NAME, lambda w: table.get(w[0], w[0]), m[0]), text)
            if new != text:
                open(p, "w", encoding="utf-8").write(new)
    print(len(table), "words", file=sys.stderr)


if __name__ == "__main__":
    main()

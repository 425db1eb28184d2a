#!/usr/bin/env python3
"""Respells the repository's own names: camelCase definitions, fields and lemmas get snake_case, and a dash in a definition of specs/,
a field or a constructor gets an underscore. A lemma of proofs/ keeps its dashes (they join two names), and so does a name that begins with a capital.

usage: respell.py [--check] [--lemmas] [--md]      at the repository's top, after port.py; a second run changes nothing

Turned are whole words alone: in specs/, proofs/ and src/ of every crate, in must-fail/*.edit and more-wrong/*.edit, and with --md in
code spans of README.md and docs/*.md. A comment's words turn where they are camelCase, or stand in a code span. Names in src/ that are
Rust's, strings, and names that a library declares stay. --lemmas also turns a dash of a lemma before a word that names nothing ('child-no').
A name whose plain spelling is another's gets the one of OWN.
It stops, and writes nothing, where two names would fall together (by declaration, or in one file) or a parameter of Rust would hide one.
"""
import collections
import os
import re
import sys

# The new name of a name where the plain rule's would meet another; read only while the old one is declared.
SPECIAL = {"getD-map-lt": "get_or-map-lt", "getD-rep": "get_or-rep", "maximum-getD": "maximum-get_or"}
# Where the name on the left is turned, a name that it would meet makes way.
MAKES_WAY = {"roomBy": ("room_by", "room_by-room_for")}
# Names that a dash alone would tell from another: (folders or files, name, its new one). The first row that fits a file counts.
OWN = [
    # the law of a definition, beside it
    ("model/specs/Laws model/proofs/Laws pool/proofs/Sizes", "fan-out", "fan_agrees"),
    ("model/specs/Laws model/proofs/Laws pool/proofs/Sizes", "in-frames", "frames_agree"),
    ("model/proofs/Laws", "largest-at =", "largest_agrees ="),
    ("model/specs/Laws pool/proofs/Sizes", "largest-at", "largest_agrees"),
    ("model/proofs/Laws", "largest-at", "largest_at-largest_fit"),
    ("model/specs/Laws", "largest-fit", "largest_fit_is"),
    ("model/proofs/Laws", "largest-fit =", "largest_fit_is ="),
    ("model/proofs/Laws", "largest-fit as largest-at-fit", "largest_at-is"),
    ("model/proofs/Laws", "largest-at-fit", "largest_at-is"),
    ("sizes/specs/Laws", "largest-fit", "largest_at_is"),
    ("sizes/proofs/Ladder", "largest-fit = largest-fit", "largest_at_is = largest_at-is"),
    ("sizes/proofs/Ladder", "largest-fit", "largest_at-is"),
    ("model pages", "any-free", "any_free_is"),
    ("pages/proofs/Statements", "words-of", "to_words"),
    # a lemma, beside a definition
    ("pages/proofs/AskSeed", ").words-of", ").to_words"),
    ("pages/proofs/Shown", ").words-of", ").to_words"),
    ("pages/proofs/SoundView", "words-of = words-of", "to_words = to-words"),
    ("pages/proofs/SoundView", "words-of", "to-words"),
    ("model/proofs/Words", "words-of", "words-node"),
    ("pages", "words-of", "asked-words"),
    ("pool/proofs/Regions pages/proofs/SeedTests pages/proofs/Touched", "in-frames", "passes-frames"),
    ("pages", "in-frames", "span-frames"),
    ("sizes pool pages", "fan-out-at", "fan_out-at"),
    ("sizes pool pages", "fan-out-some", "fan_out-some"),
    ("sizes pool pages", "fan-out-most", "fan_out-most"),
    ("sizes pool pages", "largest-fit-at", "largest_fit-at"),
    # another name that a file gives to what it imports
    ("model pool pages demands", "largest-code", "largest_code"),
    ("model/specs", "frames-of", "frames_of"),
    ("pool", "frames-of", "frames_by_code"),
]
WORD = re.compile(r"\"(?:[^\"\\\n]|\\.)*\"|--[^\n]*|//[^\n]*|[^\s(){}.;,@\"«»\[\]`]+|`")
SIGNATURE = re.compile(r"^( *)((?:(?:pub|abbrev|unfoldable|private)\s+)*)([^\s(){}.;,@\"«»\[\]:]+(?: [^\s(){}.;,@\"«»\[\]:]+)*) : ", re.M)
OPENS = re.compile(r"^( *)(?:pub )?(?:record|data)\s.*where\s*$")
CAMEL = re.compile(r"(?<=[a-z0-9'])([A-Z])")


def read(p):
    with open(p, encoding="utf-8", newline="") as f:
        return f.read()


def below(*parts_and_ends):
    for top, ends in parts_and_ends:
        for c in sorted(os.listdir("crates")):
            for folder, dirs, files in os.walk(os.path.join("crates", c, top)):
                dirs.sort()
                for f in sorted(files):
                    if f.endswith(ends):
                        yield os.path.join(folder, f)


def snake(name):
    parts = name.split("-")
    return "-".join(p if p[:1].isupper() else CAMEL.sub(lambda m: "_" + m[1].lower(), p) for p in parts)


def declared(texts):
    """The names that the texts declare: name -> files; and those that are fields or constructors."""
    names, fields = collections.defaultdict(set), set()
    for p, t in texts.items():
        if not p.endswith(".antt"):
            continue
        level = None
        for line in t.split("\n"):
            if not line.strip() or line.lstrip().startswith("--"):
                continue
            depth = len(line) - len(line.lstrip())
            if level is not None and depth <= level:
                level = None
            m = OPENS.match(line)
            if m:
                level = len(m[1])
                continue
            m = SIGNATURE.match(line)
            if not m:
                continue
            for n in (m[2] + m[3]).split():
                if n not in ("pub", "abbrev", "unfoldable", "private"):
                    names[n].add(p)
                    if level is not None:
                        fields.add(n)
    return names, fields


def table(texts, lemmas):
    names, fields = declared(texts)
    ours = set(os.listdir("crates"))
    library = set()
    for p, t in texts.items():
        if p.endswith((".antt", ".rt")):
            for path, items in re.findall(r"use ([^\s{;]+)\.\{([^}]*)\}", t):
                if not (path.startswith("Rattle.") and path.split(".")[1] in ours):
                    library |= {it.split(" as ")[0].strip() for it in items.split(",")}
                # An alias of a use line is the file's own name.
                for it in items.split(","):
                    if " as " in it:
                        names[it.split(" as ")[1].strip()].add(p)
    known = {snake(n) for n in names if "-" not in n} | {n for n in library if "-" not in n}
    out, special = {}, {}
    for n in names:
        in_proof = all(os.path.basename(p) in ("Proof.antt", "Answers.antt", "Invariants.antt") for p in names[n])
        if n[:1].isupper() or n in library:
            continue
        new = SPECIAL.get(n) or snake(n)
        if "-" in new and not in_proof:
            stated = n in fields or any("/specs/" in p for p in names[n])
            if stated:
                new = new.replace("-", "_")
            elif lemmas:
                parts = new.split("-")
                new = parts[0] + "".join(("-" if q in known else "_") + q for q in parts[1:])
        if new != n:
            out[n] = new
        if n in MAKES_WAY and n in out:
            special.update([MAKES_WAY[n]])
    out.update(special)
    # A dash stays where the name with the underscore is taken.
    taken = collections.Counter(out.values())
    stays = sorted(n for n, new in out.items() if "-" in n and n == new.replace("_", "-") and (taken[new] > 1 or new in names and new not in out))
    for n in stays:
        del out[n]
    return out, names, library, stays


def turn(text, words, rt):
    """Words of code; in a comment a code span's, and else those with a capital inside alone."""
    prose = lambda t: re.sub(r"`[^`\n]*`", lambda s: code(s[0]), re.sub(r"[^\s(){}.;,@\"«»\[\]`:]+", lambda w: words.get(w[0], w[0]) if CAMEL.search(w[0]) else w[0], t))

    def code(t):
        def one(m):
            w = m[0]
            if w.startswith('"') or w == "`":
                return w
            if w.startswith("//" if rt else "--"):
                return prose(w)
            if not rt and w.startswith("//") or rt and w.startswith("--"):
                return w
            return words.get(w, w)
        return WORD.sub(one, t)

    t = code(text)
    return re.sub(r"(?<=[{ ,])([^\s,{}]+) as \1(?=[},])", r"\1", t)


def own(path, text):
    """The rows of OWN, in the code of a proof or a definition."""
    if not path.endswith(".antt"):
        return text
    edge = r"[^\s(){}.;,@\"«»\[\]`]"
    for files, name, new in OWN:
        if not any(path.startswith(("crates/" + f + "/", "crates/" + f + ".antt")) for f in files.split()):
            continue
        pattern = re.compile((f"(?<!{edge})" if name[0] != ")" else "") + re.escape(name) + f"(?!{edge})")
        text = "\n".join(pattern.sub(new, line) if not line.lstrip().startswith("--") else line for line in text.split("\n"))
    return text


def older(text):
    """A text of the older Rattle as port.py leaves it: projections written tight, operators with a hole, words in snake case."""
    text = re.sub(r"\(([^\s()]+) \.([^\s(){}.;,]+)\)(?! \.)", r"\1.\2", text)
    text = re.sub(r"([^\s(){}.;,]+|«[^»]*») \.(?=[^\s(){}.;,])", r"\1.", text)
    text = re.sub(r"(?<=[{ ,])_([^\s\w,{}]+)_(?=[,}])", r"◌\1◌", text)
    return re.sub(r"[^\s(){}.;,@\"«»\[\]`]+", lambda w: snake(w[0]) if w[0][0].islower() else w[0], text)


def edit(path, text, words, new_texts):
    """An edit's lines are of the file that it names. Where the old text no longer stands once, it is read as one of the older Rattle."""
    rt = bool(re.search(r"^file: \S+\.rt", text, re.M))
    out = "".join(re.sub(r"^((?:old|new): ?)(.*)", lambda m: m[1] + turn(m[2], words, rt), line, flags=re.S) for line in text.splitlines(True))

    def lines(t):
        done, of, ok = [], None, True
        for line in t.split("\n"):
            if line.startswith("file: "):
                of = new_texts(os.path.join(os.path.dirname(os.path.dirname(path)), line[6:].strip()))
            elif line.startswith("old: ") and of is not None:
                now = [line[5:], older(line[5:])]
                at = next((k for k, it in enumerate(now) if of.count(it) == 1), None)
                ok, k, was = ok and at is not None, at or 0, now[at or 0]
                line = "old: " + was
            elif line.startswith("new: ") and of is not None:
                line = "new: " + (older(line[5:]) if k else line[5:])
                of = of.replace(was, line[5:])
            done.append(line)
        return "\n".join(done), ok

    out, ok = lines(out)
    if not ok:
        print(f"edit by hand: {path}")
    return out


def clashes(texts, words, names):
    said = []
    by_new = collections.defaultdict(list)
    for old, new in words.items():
        by_new[new].append(old)
    for new, olds in by_new.items():
        if len(olds) > 1:
            said.append(f"{new}: would be both of {', '.join(olds)}")
        if new in names and new not in words:
            said.append(f"{new}: {olds[0]} ({min(names[olds[0]])}) would meet the one of {min(names[new])}")
    for p, t in texts.items():
        if not p.endswith((".antt", ".rt")):
            continue
        rt = p.endswith(".rt")
        code = re.sub(r"--[^\n]*|//[^\n]*", "", t)
        here = set(WORD.findall(code))
        for w in here & set(words):
            new = words[w]
            if rt:
                params = set(re.findall(r"\b(\w+):\s", re.sub(r"record \{[^}]*\}", "", code)))
                if new in params:
                    said.append(f"{p}: a parameter or field {new} would hide {w}")
            elif new in here and new not in words:
                heads = re.sub(r"^\s*(pub )?use [^\s{]+", "", code, flags=re.M)
                heads = re.sub(r"\.[^\s(){}.;,@\"«»\[\]`]+", "", heads)
                if new in set(WORD.findall(heads)):
                    said.append(f"{p}: {w} would meet {new}")
    return said


def main():
    flags = set(sys.argv[1:])
    if flags - {"--check", "--lemmas", "--md"} or not os.path.isdir("crates"):
        sys.exit(__doc__)
    texts = {p: read(p) for p in below(("specs", ".antt"), ("proofs", ".antt"), ("src", ".rt"), ("must-fail", ".edit"), ("more-wrong", ".edit"))}
    words, names, library, stays = table(texts, "--lemmas" in flags)
    said = clashes(texts, words, names)
    for it in said:
        print("clash: " + it)
    if said:
        sys.exit(2)
    if "--md" in flags:
        for folder in (".", "docs"):
            for f in sorted(os.listdir(folder)) if os.path.isdir(folder) else ():
                if f.endswith(".md"):
                    texts[os.path.join(folder, f)] = read(os.path.join(folder, f))
    changed = 0
    for p, t in texts.items():
        if p.endswith(".edit"):
            new = edit(p, t, words, lambda q: turn(texts[q], words, q.endswith(".rt")) if q in texts else None)
        elif p.endswith(".md"):
            new = re.sub(r"`[^`\n]+`", lambda s: turn(s[0], words, False), t)
        else:
            new = own(p, turn(t, words, p.endswith(".rt")))
        if new != t:
            changed += 1
            if "--check" not in flags:
                with open(p, "w", encoding="utf-8", newline="") as f:
                    f.write(new)
    kept = sorted(n for n in names if n in library and n != snake(n))
    print(f"respell: {len(words)} names, {changed} files" + (f"; a library's, kept: {', '.join(kept)}" if kept else ""))
    if stays:
        print("the underscore's name is taken, see OWN: " + ", ".join(stays))
    left = collections.Counter()
    for p, t in texts.items():
        if p.endswith((".antt", ".rt")):
            t = turn(t, words, p.endswith(".rt")) if "--check" in flags else read(p)
            for w in WORD.findall(re.sub(r"--[^\n]*|//[^\n]*", "", t)):
                if CAMEL.search(w) and w[0].islower() and not w.startswith('"'):
                    left[w] += 1
    print("camel words left: " + (", ".join(f"{w} ({n})" for w, n in left.most_common(60)) or "none"))


if __name__ == "__main__":
    main()

#!/usr/bin/env python3
"""Brings the names of this repository's definitions, lemmas and fields to snake case: usage: tools/respell.py, once, at the top, behind the kit's port.py.

Turned are the names that specs/ and proofs/*.antt declare (also fields, constructors and helpers under `where`), where they have a hyphen or, begun with a small letter, a capital.
A word behind a dot turns only if it is a field's name. The files in proofs/FUNCTION/ declare labels of the toolchain's: what they alone declare stays.
In comments and in documents only words with a capital and words between backticks turn, since a hyphen stands in prose too. Functions of src/ keep their names.
"""
import os
import re
import sys

WORD = r"[^\s(){}.;,:@\"«»\[\]`]+"
TURNED = re.compile(r"[a-z0-9][A-Z]|\w-\w|[ℤℕ]-|-[ℤℕ*+]")


def snake(name):
    if not name[:1].isupper():
        name = re.sub(r"(?<=[a-z0-9])[A-Z]", lambda m: "_" + m[0].lower(), name)
    return name.replace("-", "_")


def files():
    for folder, dirs, names in os.walk("crates"):
        dirs[:] = sorted(d for d in dirs if d not in ("out", "target"))
        for n in sorted(names):
            yield os.path.join(folder, n)


def is_shared(path):
    """Whether an antt file is in specs/ or directly in proofs/, and not in a function's folder."""
    return path.endswith(".antt") and ("/specs/" in path or os.path.basename(os.path.dirname(path)) == "proofs")


# Where two names would fall together, the lemma (with the hyphen) gets `_fact` behind it; these do too, as a definition has the name already.
TAKEN = {"at-place", "first-at", "link-in", "rows-from"}
# A constant of src/ has the name in capitals; a constructor of the worked surveys keeps its own.
GIVEN = {"MOST-BITS": "most_bits", "MOST-MARGIN": "most_margin", "no-plan": "no_plan", "noPlan": "not_plan"}
# Helpers of one file that have the new name of a definition which the file cites.
LOCAL = {
    "crates/neighbours/proofs/DegreeSums.antt": ("count_at", "count_at_is"),
    "crates/site/proofs/Begun.antt": ("head_ok", "head_ok_is"),
    "crates/qubo/proofs/RowShapes.antt": ("one_bit", "one_bit_is"),
}

DECLARED = re.compile(r"(?m)^ *(?:abbrev |unfoldable |pub |private |ruleset )*(%s)(?: +\{[^{}\n]*\})* :(?!:)" % WORD)
FIELD = re.compile(r"(?m)^ +(?:pub )?(%s) :(?!:)" % WORD)
RULESET = re.compile(r"(?m)^ *(?:pub )?ruleset (?:pub )?(%s)" % WORD)


def names():
    table, fields = {}, {}
    for p in files():
        if not is_shared(p):
            continue
        with open(p, encoding="utf-8") as f:
            text = f.read()
        code = re.sub(r"(?m)(^|\s)--.*$", r"\1", text)
        for m in list(DECLARED.finditer(code)) + list(RULESET.finditer(code)):
            n = m[1]
            if TURNED.search(n) and not n.startswith("-"):
                if n[0].isupper() and "-" not in n:
                    continue
                table[n] = snake(n)
        # the fields of records and the constructors of data
        for block in re.finditer(r"(?m)^(?:pub |abbrev )*(?:record|data) .*\n((?: .*\n|\n)*)", code):
            for m in FIELD.finditer(block[1]):
                n = m[1]
                if TURNED.search(n) and not (n[0].isupper() and "-" not in n):
                    fields[n] = snake(n)
                    table[n] = snake(n)
    news = {}
    for old, new in table.items():
        news.setdefault(new, []).append(old)
    for old in table:
        if "-" in old and (len(news[table[old]]) > 1 or old in TAKEN):
            table[old] += "_fact"
        table[old] = GIVEN.get(old, table[old])
        if old in fields:
            fields[old] = table[old]
    return table, fields


USE = re.compile(r"(?m)\buse ([^\s;{]+?)\.\{([^}]*)\}")


def kept(text):
    """The names that a file takes from the toolchain's libraries: they are not ours."""
    own = {n for n in os.listdir("crates")}
    names = set()
    for m in USE.finditer(text):
        steps = m[1].split(".")
        if not (steps[0] == "Rattle" and len(steps) > 1 and steps[1] in own):
            names.update(w.split(" as ")[0].strip() for w in m[2].split(","))
    return names


ALIAS = re.compile(r"(?m)\buse Rattle\.[^\s;{]+ as ([\w-]+)")


def turn_code(text, table, fields, aliases=()):
    def one(m):
        dot = m.start() > 0 and text[m.start() - 1] == "."
        # behind a module's short name any name may stand
        if dot and (re.search(r"(?:(?<=[^\w.'-])|^)(\w+)\.$", text[: m.start()]) or [None])[0] in {a + "." for a in aliases}:
            dot = False
            return table.get(m[0], m[0])
        # `..` is no dot
        if dot and m.start() > 1 and text[m.start() - 2] == ".":
            dot = False
        new = (fields if dot else table).get(m[0])
        return new if new else m[0]

    return re.sub(WORD, one, text)


def turn_prose(text, table):
    def one(m):
        n = m[0]
        return table[n] if n in table and re.search(r"[a-z0-9][A-Z]", n) else n

    text = re.sub(WORD.replace("\\\"", "\\\"?!'"), one, text)

    def span(m):
        return "`" + re.sub(WORD, lambda w: table.get(w[0], w[0]), m[1]) + "`"

    return re.sub(r"`([^`\n]+)`", span, text)


def local(text, path):
    if path not in LOCAL:
        return text
    old, new = LOCAL[path]
    return re.sub(r"(?<![\w.-])%s(?![\w-])" % re.escape(old), new, text)


def turn_antt(text, table, fields):
    lines, aliases = [], ALIAS.findall(text)
    for line in text.split("\n"):
        m = re.search(r"(^|\s)--( |$)", line)
        at = m.start() if m else len(line)
        lines.append(turn_code(line[:at], table, fields, aliases) + turn_prose(line[at:], table))
    return "\n".join(lines)


CLAUSE = re.compile(r"(?:\b(?:requires|ensures)\s*\*?\s*(?:\w+\s*)?\{)|(?:\bghost\s+(?:use\b|\w+))")


def turn_rt(text, table, fields):
    """Clauses and ghost items turn, and comments as prose."""
    out, i = [], 0
    while i < len(text):
        if text.startswith("//", i):
            j = text.find("\n", i)
            j = len(text) if j < 0 else j
            out.append(turn_prose(text[i:j], table))
            i = j
            continue
        if text[i] in "\"'":
            m = re.compile(r"\"(?:\\.|[^\"\\])*\"|'(?:\\.|[^'\\\n])'|'").match(text, i)
            out.append(m[0])
            i = m.end()
            continue
        m = CLAUSE.match(text, i) if (i == 0 or not (text[i - 1].isalnum() or text[i - 1] == "_")) else None
        if m:
            if m[0].startswith("ghost"):
                # up to the `;`, or over the block
                semi, brace = text.find(";", i), text.find("{", i)
                if "use" in m[0] or 0 <= semi < brace or brace < 0:
                    j = semi + 1
                else:
                    j = close(text, brace)
            else:
                j = close(text, m.end() - 1)
            out.append(turn_code(text[i:j], table, fields))
            i = j
            continue
        out.append(text[i])
        i += 1
    return "".join(out)


def close(text, brace):
    depth = 0
    for j in range(brace, len(text)):
        depth += {"{": 1, "}": -1}.get(text[j], 0)
        if depth == 0:
            return j + 1
    raise SystemExit("respell: a clause has no end")


def together(table):
    """Names that would fall together with one that the files have already, or with one another."""
    words = {}
    for p in files():
        if p.endswith((".antt", ".rt")):
            with open(p, encoding="utf-8") as f:
                for w in re.findall(WORD, f.read()):
                    words.setdefault(w, set()).add(p)
    olds = {}
    for old, new in table.items():
        olds.setdefault(new, []).append(old)
    for new, those in sorted(olds.items()):
        if len(those) > 1:
            print("together:", new, those)
        if new in words:
            both = [p for p in words[new] if any(p in words.get(o, ()) for o in those)]
            print("there already:", new, those, "in", len(words[new]), "files; both in", sorted(both)[:6])


def main():
    table, fields = names()
    if sys.argv[1:] == ["--list"]:
        for old in sorted(table):
            print(old, table[old], "field" if old in fields else "")
        return
    if sys.argv[1:] == ["--together"]:
        together(table)
        return
    for p in files():
        if p.endswith(".antt"):
            turn = lambda t, mine: turn_antt(local(t, p), mine, fields)
        elif p.endswith(".rt"):
            turn = lambda t, mine: turn_rt(t, mine, fields)
        else:
            continue
        with open(p, encoding="utf-8") as f:
            text = f.read()
        stay = kept(text)
        mine = {o: n for o, n in table.items() if o not in stay}
        new = turn(text, mine)
        if new != text:
            with open(p, "w", encoding="utf-8") as f:
                f.write(new)
    words = set()
    for p in files():
        if p.endswith((".antt", ".rt")):
            with open(p, encoding="utf-8") as f:
                words.update(re.findall(WORD, f.read()))

    def later(m):
        # a name that port.py had turned before
        return "`" + re.sub(WORD, lambda w: snake(w[0]) if TURNED.search(w[0]) and w[0] not in words and snake(w[0]) in words else w[0], m[1]) + "`"

    pages = ["README.md"] + sorted(os.path.join("docs", n) for n in os.listdir("docs") if n.endswith(".md"))
    for p in pages:
        with open(p, encoding="utf-8") as f:
            text = f.read()
        new = re.sub(r"`([^`\n]+)`", later, turn_prose(text, table))
        if new != text:
            with open(p, "w", encoding="utf-8") as f:
                f.write(new)


main()

#!/usr/bin/env python3
"""Brings the repository's own names to today's spelling, after port.py: words in snake case, types and facts in camel case.

usage: python3 tools/respell.py [ROOT] [--list]      ROOT: a checkout that port.py has turned; else the one that this file stands in

A dash stays only where it joins two names: in a lemma whose first part is a definition and whose other parts are too, as
`bits-append`. Names from src/ (functions, types, fields) keep their spelling, and so does what comes from std or from the logic,
and what a proof file takes of the names that the check makes. --list prints each old name with its new one and changes nothing.
Two names of one file that would become one are an error, and nothing is changed then.
"""
import glob
import os
import re
import sys

DASHED = re.compile(r"(?<![^\s(){}\[\];,.\"`«])([^\W\d][\w']*(?:-[\w'*]+)+)(?![^\s(){}\[\];,.\"`:»])")
DEFINED = re.compile(r"^( *)((?:(?:abbrev|unfoldable|pub|data|record|ruleset) )*)([^\s(){}:.,;`]+)((?: *\{[^{}]*\}| *\((?:[^()]|\((?:[^()]|\([^()]*\))*\))*\))*) *:(?= )(.*(?:\n {2,}→[^\n]*)*)", re.M)
USE = re.compile(r"^ *(?:ghost )?use ([\w+'-]+(?:\.[\w+'-]+)*)(?:\.\{([^}]*)\})?(?: as ([\w'-]+))?;?", re.M)
# plain words that stand for a constructor or a relation in a lemma's name
WORDS = {"append", "cons", "nil", "suc", "zero", "lt", "le", "length", "take", "drop", "map", "set", "replicate", "sum", "get_or", "mod", "div"}


def crates(root):
    return sorted(c for c in os.listdir(os.path.join(root, "crates")) if os.path.isdir(os.path.join(root, "crates", c, "src")))


def files(root):
    for c in crates(root):
        for kind in ("src", "specs", "proofs"):
            for p in sorted(glob.glob(f"{root}/crates/{c}/{kind}/**/*", recursive=True)):
                if p.endswith((".rt", ".antt")):
                    yield c, kind, p


def without_comments(text, rt):
    """The text with comments, and in a source its texts, blanked out, of the same length."""
    blank = lambda m: " " * len(m.group(0))
    if rt:
        text = re.sub(r'b?"(?:[^"\\\n]|\\.)*"', blank, text)
        return re.sub(r"//[^\n]*", blank, text)
    return re.sub(r"--(?=[\s-])[^\n]*", blank, text)


def goals_of(text):
    """The names in a proof file whose types are the check's."""
    return set(re.findall(r"^(?:abbrev )?(?:pub )?([^\s(){}:.,;]+) : (?:tie|goal)\.", text, re.M)) | set(re.findall(r"^pub ([^\s(){}:.,;]+-spec) :", text, re.M))


def outside(text, own):
    """The names that a file takes from std or the logic."""
    out = set()
    for m in USE.finditer(text):
        parts = m.group(1).split(".")
        if parts[0] == "Rattle" and len(parts) > 1 and parts[1] in own:
            continue
        for item in (m.group(2) or "").replace("\n", " ").split(","):
            if item.strip():
                out.add(item.split(" as ")[0].strip())
    return out


def camel(name):
    return "".join(w[:1].upper() + w[1:] for w in re.split(r"[-_]", name))


def snake(name):
    return name.replace("-", "_")


def names(root):
    """Each dashed name of the repository's own, with its new spelling, and the record fields among them."""
    kinds, fields = {}, set()
    for c, kind, p in files(root):
        if kind == "src":
            continue
        text = without_comments(open(p, encoding="utf-8").read(), False)
        goals = goals_of(text)
        for m in DEFINED.finditer(text):
            indent, marks, name, args, result = m.groups()
            if name in goals:
                continue
            last = result.strip().split("→")[-1].strip()
            fact = "record" in marks or "data" in marks or re.match(r"Type [01]", last) or name.endswith("-Inv")
            lemma = "abbrev" not in marks and "unfoldable" not in marks and re.search(r"[≡≤<]", last)
            if indent and ("pub" in marks or in_record(text, m)):
                fields.add(name)
            kinds.setdefault(name, set()).add("fact" if fact else "lemma" if lemma and kind == "proofs" else "word")
    words = {snake(n) for n, k in kinds.items() if "word" in k and n[0].islower()} | WORDS
    out = {}
    for name, k in kinds.items():
        if not DASHED.fullmatch(name):
            continue
        if "fact" in k:
            out[name] = camel(name)
        elif name[0].isupper():
            out[name] = snake(name).lower()
        elif k == {"lemma"} and joined(name, words):
            out[name] = joined(name, words)
        else:
            out[name] = snake(name)
    return out, fields


def in_record(text, m):
    """Whether the nearest line above that is indented less opens a record."""
    for line in reversed(text[:m.start()].split("\n")):
        if line.strip() and len(line) - len(line.lstrip()) < len(m.group(1)):
            return bool(re.match(r" *(?:pub )?record ", line))
    return False


def joined(name, words):
    """The lemma's name as names joined by dashes, or None where a part is no name."""
    parts = name.split("-")
    def split(i, first):
        if i == len(parts):
            return [] if not first else None
        for j in range(len(parts), i, -1):
            word = "_".join(parts[i:j])
            if word in words and not (i == 0 and j == len(parts)):
                rest = split(j, False)
                if rest is not None:
                    return [word] + rest
        return None
    found = split(0, True)
    return "-".join(found) if found else None


def respelled(text, rt, table, fields, own):
    """The text with its own names respelled, and where each old name went."""
    bare = without_comments(text, rt)
    keep, goals = outside(bare, own), goals_of(bare)
    went = {}
    def turn(m):
        name = m.group(1)
        before = bare[max(0, m.start() - 60):m.start()]
        if before.endswith("."):
            module = re.search(r"(?<![\w.'])[A-Z][\w']*\.$", before)
            if name not in (table if module else fields) or re.search(r"(?<![\w.])(?:tie|goal)\.$", before):
                return name
        elif name in keep or name in goals:
            return name
        new = table.get(name, snake(name))
        went[name] = new
        return new
    out, last = [], 0
    for m in DASHED.finditer(bare):
        out.append(text[last:m.start()])
        out.append(turn(m))
        last = m.end()
    out.append(text[last:])
    text = "".join(out)
    # names between backticks in comments
    mark = "//" if rt else "--"
    def comment(m):
        return re.sub(r"`([^`\n]+)`", lambda q: "`" + DASHED.sub(lambda n: table.get(n.group(1), n.group(1)) if n.group(1) not in keep else n.group(1), q.group(1)) + "`", m.group(0))
    text = re.sub(mark + r"[^\n]*", comment, text)
    return text, went


def meet(bare, went, rt):
    """The names of one file that fall together."""
    # a path names modules, and a function of the source is no word of a clause
    bare = re.sub(r"^( *(?:ghost )?use )[\w.+'-]+", r"\1", bare, flags=re.M)
    if rt:
        bare = re.sub(r"\b\w+(?=\()|::\w+|\buse [^;]*::[^;]*;", " ", bare)
    here = set(re.findall(r"[^\s(){}\[\];,.\"`:]+", bare))
    bad = []
    back = {}
    for old, new in went.items():
        if new in here and new != old:
            bad.append((old, new, "stands there already"))
        if new in back:
            bad.append((old, new, "also from " + back[new]))
        back[new] = old
    return bad


def main():
    words = [a for a in sys.argv[1:] if not a.startswith("--")]
    root = os.path.abspath(words[0]) if words else os.path.dirname(os.path.dirname(os.path.abspath(__file__)))
    own = set(crates(root))
    table, fields = names(root)
    if "--list" in sys.argv:
        for old in sorted(table):
            print(old, table[old])
        return 0
    done, bad = [], 0
    for _, kind, p in files(root):
        text = open(p, encoding="utf-8").read()
        rt = p.endswith(".rt")
        new, went = respelled(text, rt, table, fields, own)
        for old, to, why in meet(without_comments(text, rt), went, rt):
            print(f"{os.path.relpath(p, root)}: {old} -> {to}: {why}")
            bad += 1
        if new != text:
            done.append((p, new))
    if bad and "--force" not in sys.argv:
        print(f"respell: {bad} names fall together; nothing was changed")
        return 1
    for p, new in done:
        with open(p, "w", encoding="utf-8") as f:
            f.write(new)
    print(f"respell: {len(done)} files")
    return 0


if __name__ == "__main__":
    sys.exit(main())

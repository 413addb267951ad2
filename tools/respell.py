#!/usr/bin/env python3
"""Brings the definitions and lemmas of this repository to Rattle's spelling: tools/respell.py, once, at the top of the checkout.

Words of a name are joined by '_', and a type or a fact is in upper camel case: parts-of becomes parts_of, Near-exact becomes NearExact. A dash stays
beside an operator, as in *-add, and in the names that Rattle makes, which are those of goals and of steps of the code. Names of the library are not touched.
"""
import glob
import re
import sys

NAME = r"[^\s(){}\[\];,.:λ◌→]+"
DECLARED = re.compile(rf"^\s*(?P<mods>(?:abbrev |unfoldable |pub |record |data |ruleset )*)(?P<name>{NAME})\s*(?P<rest>.*)$")
WORD = re.compile(r"[A-Za-z0-9_']+")
TOKEN = re.compile(rf"(?<![^\s(){{}}\[\];,.:λ]){NAME}")


def sources(kind):
    return sorted(p for folder in ("specs", "proofs", "src") for p in glob.glob(f"crates/*/{folder}/**/*.{kind}", recursive=True))


def is_word(part):
    return bool(WORD.fullmatch(part))


def respelled(name):
    parts = name.split("-")
    if name[0].isupper():
        return "".join(p[0].upper() + p[1:] for p in parts)
    text = parts[0]
    for before, part in zip(parts, parts[1:]):
        text += ("_" if is_word(before) and is_word(part) else "-") + part
    return text


def declared():
    own = set()
    for path in sources("antt"):
        answers = path.endswith(("/Answers.antt", "/Invariants.antt"))
        for line in open(path, encoding="utf-8"):
            found = DECLARED.match(line)
            if not found or line.lstrip().startswith("--"):
                continue
            name, rest = found["name"], found["rest"]
            is_head = rest.startswith(":") or any(w in found["mods"].split() for w in ("record", "data", "ruleset"))
            if is_head and "-" in name and not (answers and "goal." in rest):
                own.add(name)
    return own


def imported():
    names = set()
    for path in sources("antt") + sources("rt"):
        for found in re.finditer(r"use (Rattle\.std|borrow|lib|native|mathlib|Prim)[\w.'-]*\.\{([^}]*)\}", open(path, encoding="utf-8").read()):
            names |= {n.strip() for n in found[2].split(",")}
    return names


def local():
    """Names with a dash that proofs bind for themselves, as by let: none that Rattle makes, which stand behind a dot or come from Goals and Given."""
    seen, made = set(), set()
    for path in sources("antt"):
        text = open(path, encoding="utf-8").read()
        for line in text.split("\n"):
            if line.lstrip().startswith("--"):
                continue
            tokens = {t for t in TOKEN.findall(line) if "-" in t}
            made |= {m[1] for m in re.finditer(rf"\.({NAME})", line)}
            if "goal." in line or line.startswith("use "):
                made |= tokens
            seen |= tokens
        for found in re.finditer(r"\.(?:Goals|Given)\.\{([^}]*)\}", text):
            made |= {n.strip() for n in found[1].split(",")}
    for path in sources("rt"):
        made |= set(TOKEN.findall(open(path, encoding="utf-8").read()))
    made |= {n for n in seen if re.match(r"(then|else|in|loop|returns|invariant|overflow|bounds|slice|index|from)-", n)}
    return {n for n in seen - made if all(map(is_word, n.split("-")))}


def turned(text, names):
    return TOKEN.sub(lambda m: names.get(m[0], m[0]), text)


def code_lines(text, comment, names):
    """The text, respelled but for whole-line comments and strings."""
    out = []
    for line in text.split("\n"):
        if line.lstrip().startswith(comment):
            out.append(line)
        elif comment == "//":
            out.append("".join(p if i % 2 else turned(p, names) for i, p in enumerate(re.split(r'("(?:[^"\\]|\\.)*")', line))))
        else:
            out.append(turned(line, names))
    return "\n".join(out)


def write(path, text, new):
    if new != text:
        with open(path, "w", encoding="utf-8") as out:
            out.write(new)


def main():
    own = declared() | local()
    kept = own & imported()
    names = {n: respelled(n) for n in own - kept if respelled(n) != n}
    for n in sorted(kept):
        print(f"kept, since the library has it: {n}")
    back = {}
    for n, new in names.items():
        back.setdefault(new, []).append(n)
    present = set()
    for path in sources("antt"):
        for line in open(path, encoding="utf-8"):
            if not line.lstrip().startswith("--"):
                present |= set(TOKEN.findall(line))
    for new, olds in sorted(back.items()):
        if len(olds) > 1 or new in present:
            print(f"falls together: {new}: {', '.join(olds)}{' and a name that was there' if new in present else ''}")
    for path in sources("antt"):
        text = open(path, encoding="utf-8").read()
        write(path, text, code_lines(text, "--", names))
    for path in sources("rt"):
        text = open(path, encoding="utf-8").read()
        write(path, text, code_lines(text, "//", names))
    for path in glob.glob("README.md") + glob.glob("docs/*.md"):
        text = open(path, encoding="utf-8").read()
        write(path, text, re.sub(r"`[^`\n]+`", lambda m: "`" + names.get(m[0][1:-1], m[0][1:-1]) + "`", text))
    print(f"{len(names)} names respelled")
    if "--list" in sys.argv:
        for n in sorted(names):
            print(f"{n} {names[n]}")


main()

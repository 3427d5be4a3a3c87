#!/usr/bin/env python3
"""Brings the repository's own definitions and lemmas to the spelling of today's Rattle.

Functions, fields, constructors and aliases are in snake case; a lemma keeps a dash only between the names of two
functions. Two crates that have a kit library's name get another. Run once, at the top of the repository, after the
kit's port.py. It goes by text: whole words of .antt files and of the ghost text of .rt files. So it turns words in
strings too, which are mended by hand afterwards. A name that would fall together with another is left and printed.
"""
import os
import re
import sys

WORD = re.compile(r"[A-Za-z_\u0370-\u03ff\u2070-\u209f\u2100-\u214f+*^0-9'][\w'\u2080-\u2089]*(?:-[\w'\u2080-\u2089]+)*")
STD = "length take drop append replicate map get_or set reverse sum concat min max bit_and bit_or bit_xor cond not".split()


def files(root):
    for folder, dirs, names in os.walk(os.path.join(root, "crates")):
        dirs[:] = sorted(d for d in dirs if d not in ("out", "target"))
        for name in sorted(names):
            if name.endswith((".antt", ".rt")):
                yield os.path.join(folder, name)


def snake(name):
    name = name.replace("getD", "get_or")
    if re.match(r"^[A-Z]", name):
        return "".join(part[:1].upper() + part[1:] for part in name.split("-"))
    return re.sub(r"(?<=[a-z0-9])([A-Z])", lambda m: "_" + m.group(1).lower(), name.replace("-", "_"))


def declared(path, text):
    """The names that a file declares, each with its kind: def, field, constructor."""
    block = None
    for line in text.split("\n"):
        m = re.match(r"^(\s*)((?:abbrev |unfoldable |pub |mutual )*)(record|data) (\S+)", line)
        if m:
            block = (m.group(3), len(m.group(1)))
            yield m.group(4), "type"
            continue
        m = re.match(r"^(\s*)((?:abbrev |unfoldable |pub )*)([^\s:(){}|.,]+) :", line) or re.match(r"^(\s*)((?:abbrev |unfoldable |pub )*)([^\s:(){}|.,]+) [({][^=]*:", line)
        indent = len(line) - len(line.lstrip())
        if line.strip() and block and indent <= block[1]:
            block = None
        if not m or m.group(3) in ("let", "where", "use", "mod", "elim", "in", "module", "--"):
            continue
        if re.search(r": goal\.", line):
            continue
        if block:
            yield m.group(3), "field" if block[0] == "record" else "constructor"
        elif m.group(1) == "" or "pub" in m.group(2) or not re.search(r"[=]", line):
            yield m.group(3), "def"


def lemma(name, functions):
    parts = snake(name) if "-" not in name else None
    if parts:
        return parts
    words = [snake(w) for w in name.replace("getD", "get_or").split("-")]
    if name.startswith("getD"):
        words = ["get_or"] + words[1:]
    out, tail = words[0], words[0]
    for w in words[1:]:
        if (tail in functions or out in functions) and w in functions:
            out, tail = out + "-" + w, w
        else:
            out, tail = out + "_" + w, tail + "_" + w
    return out


def move_crates(root):
    """Two crates had the names of libraries of the kit."""
    for old, new in (("bytes", "byte_lists"), ("check", "image_check")):
        if not os.path.isdir(os.path.join(root, "crates", old)):
            continue
        os.rename(os.path.join(root, "crates", old), os.path.join(root, "crates", new))
        for p in files(root):
            with open(p, encoding="utf-8") as f:
                t = f.read()
            out = re.sub(rf"\bRattle\.{old}\.", f"Rattle.{new}.", t)
            out = re.sub(rf"\buse {old}::", f"use {new}::", out)
            if out != t:
                with open(p, "w", encoding="utf-8") as f:
                    f.write(out)
        p = os.path.join(root, "crates.txt")
        with open(p, encoding="utf-8") as f:
            t = f.read()
        with open(p, "w", encoding="utf-8") as f:
            f.write(re.sub(rf"(?<![\w]){old}(?!\w)", new, t))


def main(root):
    move_crates(root)
    texts = {p: open(p, encoding="utf-8").read() for p in files(root)}
    functions, kinds = set(STD), {}
    for p, t in texts.items():
        if not p.endswith(".antt"):
            continue
        specs = "/specs/" in p
        for name, kind in declared(p, t):
            if name in ("_", "|"):
                continue
            kinds.setdefault(name, set()).add((kind, specs))
            if specs and kind == "def" and not re.match(r"^[A-Z]", name):
                functions.add(snake(name))
    turned = {}
    for name, how in kinds.items():
        if "-" not in name and not re.search(r"[a-z][A-Z]", name):
            continue
        if re.match(r"^[A-Z]", name) and "-" not in name:
            continue
        plain = any(s for k, s in how) or any(k in ("field", "constructor", "type") for k, s in how)
        to = snake(name) if plain else lemma(name, functions)
        if to != name:
            turned[name] = to
    fields = {n for n, how in kinds.items() if any(k == "field" for k, s in how)}
    words = set()
    for p, t in texts.items():
        words |= set(WORD.findall(t))
    clash = {}
    for name, to in turned.items():
        clash.setdefault(to, []).append(name)
    for to, names in sorted(clash.items()):
        owned = to in kinds
        if len(names) > 1 or owned:
            print("falls together, left:", " ".join(names), "->", to)
            for n in names:
                turned.pop(n, None)
        elif to in words:
            print("look:", names[0], "->", to, "is a word elsewhere")
    changed = 0
    for p, t in texts.items():
        own = dict(turned)
        if p.endswith(".rt"):
            for a in re.findall(r"\bas ([a-z]\w*[a-z0-9][A-Z]\w*)", "\n".join(re.findall(r"ghost use [^;]*;", t))):
                own[a] = snake(a)
        aliases = set(re.findall(r"^(?:ghost )?use \S+ as (\S+?);?$", t, re.M))

        def swap(m):
            w = m.group(0)
            if w not in own:
                return w
            before = t[: m.start()]
            if before.endswith("."):
                owner = re.search(r"([\w'-]+)\.$", before)
                if w in fields or (owner and owner.group(1) in aliases):
                    return own[w]
                return w
            return own[w]

        if p.endswith(".rt"):
            # ghost text only: ghost use lines, clauses and ghost items
            new = []
            deep = 0
            for line in t.split("\n"):
                ghost = deep > 0 or re.search(r"^\s*(ghost |requires|ensures)", line) or re.search(r"(ghost |requires|ensures)[ *\w]*\{", line)
                if ghost:
                    line2 = WORD.sub(lambda m: own[m.group(0)] if m.group(0) in own and (not line[: m.start()].endswith(".") or m.group(0) in fields) else m.group(0), line)
                    opens = line.count("{") - line.count("}")
                    deep = max(0, deep + opens) if not re.search(r"\{\s*$", line) or deep > 0 or re.search(r"(requires|ensures|ghost)[^{]*\{\s*$", line) else deep
                    new.append(line2)
                else:
                    new.append(line)
            out = "\n".join(new)
        else:
            out = WORD.sub(swap, t)
        if out != t:
            changed += 1
            with open(p, "w", encoding="utf-8") as f:
                f.write(out)
    print(len(turned), "names respelled in", changed, "files")
    for n in sorted(turned):
        print(n, "->", turned[n])


if __name__ == "__main__":
    main(sys.argv[1] if len(sys.argv) > 1 else ".")

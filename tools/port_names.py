#!/usr/bin/env python3
"""Brings the names of this repository's own definitions and lemmas to the spelling of today's Rattle, once, right behind port.py:

    python3 /opt/rattle/port/port.py && python3 tools/port_names.py

- A name in camel case is one in snake case: `readOn` is `read_on`. Types, modules and facts keep their capital.
- A dash of a lemma's name is an underscore, but where it joins the names of two definitions.
- A lemma that would then bear a definition's name gets `_lem`; so does the local name of a step of a proof.
Goals are left as they are: rattle makes their names. Proofs, edits, scripts and pages say the new names too.
"""

import glob
import re

NAME = r"[A-Za-z_][A-Za-z0-9_'≡≢]*(?:-[A-Za-z0-9_'≡≢]+)*"
TOKEN = re.compile(rf"(?<![\w'≡≢-]){NAME}")
DECLARED = re.compile(rf"^\s*(?:(?:unfoldable|abbrev|pub)\s+)*(?:(?:record|data)\s+)?(?:unfoldable\s+|abbrev\s+|pub\s+)*({NAME})\s*(?:\(.*\)\s*)?:\s")
IMPORTED = re.compile(r"use ([A-Za-z_.0-9']+)\.\{([^}]*)\}")
OWN = re.compile(r"Rattle\.(?!std\.|core\.)\w+\.(?:specs|proofs)")
WALK = re.compile(r"/proofs/.+/(?:Proof|Answers|Invariants)\.antt$")


def files(*patterns):
    return sorted(f for p in patterns for f in glob.glob(p, recursive=True) if "/out/" not in f)


def text(f):
    with open(f, encoding="utf-8") as it:
        return it.read()


def code(t):
    """The text without comments."""
    return re.sub(r"--(?= |$).*", "", t, flags=re.M)


def imports(t):
    for module, names in IMPORTED.findall(t):
        for name in names.split(","):
            for word in name.strip().split(" as "):
                yield bool(OWN.match(module)), word


def snake(name):
    """In snake case, part by part; a part that begins with a capital is a fact or a type and stays."""
    if not name[:1].islower():
        return name
    return re.sub(r"(?<=[a-z0-9])[A-Z]", lambda m: "_" + m[0].lower(), name)


def joined(name, definitions):
    """With each dash an underscore, but where it joins two definitions' names."""
    parts = name.split("-")
    out = parts[0]
    for left, right in zip(parts, parts[1:]):
        out += ("-" if left in definitions and right in definitions else "_") + right
    return out


def declared(fs):
    return {m[1] for f in fs for line in code(text(f)).splitlines() if (m := DECLARED.match(line)) and ": tie." not in line}


def table():
    specs = files("crates/*/specs/**/*.antt")
    proofs = files("crates/*/proofs/**/*.antt")
    laws = [f for f in proofs if not WALK.search(f)]
    kit = {w for f in specs + proofs for own, w in imports(text(f)) if not own}
    in_specs, in_laws = declared(specs) - kit, declared(laws) - kit
    definitions = {snake(n) for n in in_specs}
    camel = {n for n in in_specs | in_laws if n != snake(n) and "-" not in n}
    defined = {snake(n) for n in camel} | {n for n in in_specs if "-" not in n}
    names = {}
    for n in sorted(in_specs | in_laws):
        new = joined(snake(n), definitions)
        if new in defined and n not in camel and n not in in_specs:
            new += "_lem"
        if "-" in n and n in in_specs and new in defined:
            new += "_lem"
        if new != n:
            names[n] = new
    return names, kit, {names.get(n, n) for n in in_specs | in_laws}


def local(t, names):
    """The names that a proof of a function declares itself, goals aside."""
    own = {m[1] for line in code(t).splitlines() if (m := DECLARED.match(line)) and ": tie." not in line}
    return {n: joined(snake(n), set()) for n in own if not n.endswith("-spec")}


def turn(t, names, kit, walk):
    """The text with its names turned. In a proof of a function a dash may be a goal's: there only what it imports or declares counts.
    Behind a dot stands a field, which has no dash but where rattle made it, or a name of a module that the file calls by another name."""
    here = names
    if walk:
        here = {w: names[w] for own, w in imports(t) if own and w in names} | local(t, names)
        goals = {m[1] for line in t.splitlines() if (m := DECLARED.match(line)) and ": tie." in line}
        here = {n: new for n, new in here.items() if n not in goals}

    aliases = tuple(f"{alias}." for alias in re.findall(r"use Rattle\.\w+\.proofs\.[A-Z]\w* as (\w+)", t))

    def one(m):
        word = m[0]
        if word in kit:
            return word
        field = t[max(0, m.start() - 1) : m.start()] == "." and not t[: m.start()].endswith(aliases or "\0")
        if word in here and not field:
            return here[word]
        return snake(word) if "-" not in word and not re.search(r"_[A-Z]", word) else word

    return TOKEN.sub(one, t)


def turn_word(word, names, known):
    """A word of a page, a script, an edit or Rust: a name of the table, or one that port.py turned where it is declared. What has neither
    a dash nor camel case may be a function's name there."""
    if word == snake(word) and "-" not in word:
        return word
    turned = snake(word).replace("-", "_")
    new = names.get(word) or names.get(turned if "-" in word else "", turned)
    return new if new in known else word


def turn_words(t, names, known):
    return TOKEN.sub(lambda m: turn_word(m[0], names, known), t)


def turn_page(t, names, known):
    """A page. Outside of backquotes and examples a dash is not a name's."""

    def line(l):
        if l.startswith("    "):
            return turn_words(l, names, known)
        parts = l.split("`")
        return "`".join(turn_words(p, names, known) if i % 2 else TOKEN.sub(lambda m: m[0] if "-" in m[0] else turn_word(m[0], names, known), p) for i, p in enumerate(parts))

    return "\n".join(line(l) for l in t.split("\n"))


def main():
    names, kit, known = table()
    together = {}
    for old, new in names.items():
        together.setdefault(new, []).append(old)
    for new, olds in sorted(together.items()):
        if len(olds) > 1:
            print(f"fall together: {', '.join(olds)} as {new}")
    for f in files("crates/**/*.antt", "crates/**/*.rt", "crates/**/*.edit", "tests/**/*.edit", "tests/*.sh", "docs/**/*.md", "README.md"):
        t = text(f)
        if f.endswith(".antt"):
            new = turn(t, names, kit, bool(WALK.search(f)))
        elif f.endswith(".md"):
            new = turn_page(t, names, known)
        else:
            new = turn_words(t, names, known)
        if new != t:
            with open(f, "w", encoding="utf-8") as it:
                it.write(new)
    print(f"{len(names)} names")


if __name__ == "__main__":
    main()

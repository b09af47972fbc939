#!/usr/bin/env python3
"""Brings this repository's own names in antt to the spelling of the kit 13f, after port.py: words in snake case, a dash only where it joins two names,
no dot in a name, `get_or` for `getD`. It rewrites specs/, proofs/, clauses and must-fail edits below crates/, trials/ and the pages, in place.

    tools/respell.py            says what falls together, and writes
    tools/respell.py --list     says the new names alone
"""
import os, re, subprocess, sys

KIT = "/opt/rattle"
WORD = r"[^\s(){}\[\];,.@\"`:|?!&*<>+/\\=«»…¹²³₀₁₂₃⌜⌝]+"
# words of the kit's library and of numbers' sizes that a lemma's name may be joined to
LIBRARY = set("length take drop set get_or append map sum min max suc zero cons reverse replicate filter slice list cond pick eqb ltb leb bool nat zip fold prefix nth lookup".split())
PLAIN = set("none some first last next all any only is in of at by to from over own same most less more step end rest one two new old up down ahead after before again".split())


def files(*tops):
    for top in tops:
        for d, ds, fs in os.walk(top):
            ds[:] = sorted(x for x in ds if x not in ("out", "target", ".git"))
            for f in sorted(fs):
                yield os.path.join(d, f)


def read(p):
    with open(p, encoding="utf-8") as f:
        return f.read()


def parts(text):
    """(piece, whether it is a comment): the pieces of a text of antt, Rattle or an edit."""
    for l in text.splitlines(keepends=True):
        at = re.search(r"(?:^|(?<=\s))(--|//|#)(?=\s)", l)
        if at:
            yield l[: at.start()], False
            yield l[at.start() :], True
        else:
            yield l, False


def uses(text):
    """(module, [(name, alias or None)]) of each import."""
    for m in re.finditer(r"^(?:pub )?(?:ghost )?use ([^\s;{]+)\.\{([^}]*)\}", text, re.M):
        names = [n.strip() for n in m.group(2).replace("\n", " ").split(",") if n.strip()]
        yield m.group(1), [tuple((n.split(" as ") + [None])[:2]) for n in names]


def camel(s):
    s = re.sub(r"(?<=[a-z0-9])([A-Z])", lambda m: "_" + m.group(1).lower(), s)
    return s


def main():
    crates = [l.split(":")[0] for l in read("crates.txt").splitlines() if l and not l.startswith("#")]
    antt = [p for p in files("crates") if p.endswith(".antt")]
    laws = [p for p in antt if os.path.basename(p) != "Proof.antt"]
    texts = {p: read(p) for p in antt}
    code_of = {p: "".join(l for l, comment in parts(t) if not comment) for p, t in texts.items()}
    own_module = re.compile(r"Rattle\.(%s)\.(?:specs(?!\.declared)|proofs)" % "|".join(crates))
    code = set()
    for p in files("crates"):
        if p.endswith(".rt"):
            code |= set(re.findall(r"\b(?:fn|struct|enum|const) (\w+)", read(p)))
    foreign = {}
    for p, t in texts.items():
        foreign[p] = {a or n for m, ns in uses(t) if not own_module.match(m) for n, a in ns}
    words = {p: set(re.findall(WORD, t)) for p, t in code_of.items()}
    defined = set()
    for p in laws:
        for l in texts[p].splitlines():
            m = re.match(r"(?:pub |abbrev |unfoldable |mutual )*(?:(?:record|data) )?(%s)(?: |$)" % WORD, l)
            if m and ":" in l and not l.startswith(("use", "pub use", "mod", "pub mod", "--")):
                defined.add(m.group(1))
    plain = {camel(n) for n in defined if "-" not in n} | LIBRARY | code

    def joined(name):
        parts = name.split("-")
        out = parts[0]
        for left, right in zip(parts, parts[1:]):
            join = "-" if left in plain and right in plain and right not in PLAIN and left not in PLAIN else "_"
            out += join + right
        return out

    # where the plain rule would meet a local name or a law of another file
    chosen = {"allSound": "all_sound_below", "byRank": "by_rank_script", "foundBefore": "was_found_before", "wayIn": "way_within"}

    def new(name):
        for a, b in chosen.items():
            name = re.sub(r"(?<![\w-])" + a + r"(?![\w])", b, name)
        if "·" in name:
            a, b = name.split("·", 1)
            return camel(a[0].lower() + a[1:]) + "_" + camel(b.replace("·", "_"))
        parts = ["get_or" if s == "getD" else s for s in name.split("-")]
        parts = [s if s[:1].isupper() or re.search(r"_[A-Z]", s) else camel(s) for s in parts]
        return joined("-".join(parts)) if len(parts) > 1 else parts[0]

    names = {}
    kit = set(subprocess.run(["grep", "-rhoE", r"[a-z][A-Za-z0-9_'-]*-[A-Za-z0-9_'-]+", KIT + "/rattle", "--include=*.antt"], capture_output=True, text=True).stdout.split())
    for p in laws:
        for w in words[p] - foreign[p]:
            if re.match(r"[A-Za-z]", w) and (("-" in w and w[-1] != "-") or re.search(r"^[a-z][\w-]*[A-Z]", w) or "·" in w):
                if w in kit and w not in defined:
                    continue
                if re.search(r"_[A-Z]", w) or w in ("viewBox",):
                    continue
                if new(w) != w:
                    names[w] = new(w)
    for p in files("crates"):
        if p.endswith(".rt"):
            for m, ns in uses(read(p)):
                for n, a in ns:
                    if a and "·" in a:
                        names[a] = new(a)
                    if own_module.match(m) and new(n) != n and "◌" not in n:
                        names[n] = new(n)
    existing = set().union(*words.values())
    seen = {}
    for a, b in sorted(names.items(), key=lambda ab: ("-" in ab[0], ab)):
        if "-" in a and (b in seen or b in existing):
            b = names[a] = b + "_lem"
        if b in seen or (b in existing and b not in code):
            print(f"falls together: {a} -> {b}" + (f" with {seen[b]}" if b in seen else ", which is there"))
        seen[b] = a
    if "--list" in sys.argv:
        for a, b in sorted(names.items()):
            print(a, "->", b)
        return

    token = re.compile(WORD)
    span = re.compile(r"`[^`\n]*`")

    def one(m, keep, in_words):
        w = m.group(0)
        return w if w in keep or (in_words and "-" in w) else names.get(w, w)

    def respelled(text, keep):
        out = []
        for l, comment in parts(text):
            if comment:
                l = span.sub(lambda s: token.sub(lambda m: one(m, keep, False), s.group(0)), l)
            out.append(token.sub(lambda m: one(m, keep, comment), l))
        return "".join(out)

    for p in antt:
        t = texts[p]
        keep = set(foreign[p])
        if p not in laws:
            local = {m.group(1) for m in re.finditer(r"^(?:pub |abbrev )*(%s)(?: |$)" % WORD, t, re.M)}
            mine = {n for m, ns in uses(t) if own_module.match(m) for n, a in ns} | {a for m, ns in uses(t) for n, a in ns if a}
            keep |= local | {w for w in words[p] if w not in mine}
        w = respelled(t, keep)
        if w != t:
            with open(p, "w", encoding="utf-8") as f:
                f.write(w)
    for p in list(files("crates", "trials", "docs", "tools", ".ci")) + ["README.md"]:
        if p.endswith((".antt",)) or os.path.realpath(p) == os.path.realpath(__file__):
            continue
        if p.endswith(".rt"):
            t = read(p)
            w = clauses(t, lambda s: respelled(s, set()))
        elif p.endswith(".edit"):
            t = read(p)
            w = respelled(t, set())
        elif p.endswith(".md"):
            t = read(p)
            w = t if "/changes/" in p else span.sub(lambda m: respelled(m.group(0), set()), t)
        else:
            continue
        if w != t:
            with open(p, "w", encoding="utf-8") as f:
                f.write(w)


def clauses(text, turn):
    """The lines of imports, clauses and ghost items, turned; code and strings as they are."""
    out = []
    for l in text.splitlines(keepends=True):
        s = l.lstrip()
        out.append(turn(l) if s.startswith(("ghost", "requires", "ensures", "//")) else l)
    return "".join(out)


if __name__ == "__main__":
    main()

#!/usr/bin/env python3
"""Brings the repository's own definitions and lemmas to snake case, once, after port.py has turned the library's names.

usage: python3 tools/respell.py        at the top of a repository that port.py has turned; --dry prints the table and what falls together

A name that an .antt file declares (a definition, a lemma, a field, a constructor) and that has a dash or a capital within is respelled, wherever it
stands: in .antt files, in the ghost lines and clauses of .rt files, and in backquotes on pages. Types, modules, what Rattle makes and what a library
declares keep their names, and so do the functions of src/.
"""
import os
import re
import sys

OWN_FILES = {"Proof.antt", "Answers.antt", "Invariants.antt"}
WORD = re.compile(r"[^\s(){}\[\];,.@\"`|]+")
NAME = re.compile(r"[a-z][A-Za-z0-9]*'*(?:[-_][A-Za-z0-9]+'*)*")
# what would fall together with another name, or reads badly, gets a name of its own
ODD = {
    "goesOn": "runs_on",
    "kind-of": "its_kind",
    "last-date": "at_last_date",
    "no-exposure": "no_exposure_lem",
    "of-derivatives": "for_derivatives",
    "of-financing": "for_financing",
    "of-off-balance": "for_off_balance",
}


def files(root, ending):
    for folder, dirs, names in os.walk(os.path.join(root, "crates")):
        dirs[:] = sorted(d for d in dirs if d != "out")
        for n in sorted(names):
            if n.endswith(ending):
                yield os.path.join(folder, n)


def read(path):
    with open(path, encoding="utf-8") as f:
        return f.read()


def parts(line):
    """The code of an antt line, and its comment."""
    m = re.search(r"(?:^|\s)--(?:\s|$)", line)
    return (line, "") if not m else (line[: m.start()], line[m.start() :])


def declared(text):
    for line in text.split("\n"):
        code, _ = parts(line)
        m = re.match(r"\s*(?:abbrev )?(?:unfoldable )?(?:pub )?(?:abbrev )?(?:unfoldable )?([^\s(){}\[\];,.:=λ→|]+(?:, [^\s(){}\[\];,.:=λ→|]+)*) :(?:\s|$)", code)
        if m:
            yield from m.group(1).split(", ")
        m = re.match(r"\s*(?:pub )?([^\s(){}\[\];,.:=λ→|]+(?: [^\s(){}\[\];,.:=λ→|]+)+) :\s", code)
        if m and not code.strip().startswith(("abbrev", "unfoldable", "use", "let", "data", "record", "module", "pub data", "pub record", "pub use", "pub mod")):
            yield from (w for w in m.group(1).split() if w != "pub")


def borrowed(text, crates):
    """The names that come from a library."""
    for m in re.finditer(r"(?:^|\n)(?:pub |ghost )?use ([^\s;{]+?)\.?\{([^}]*)\}", text):
        path = m.group(1)
        own = path.split(".")[0] == "Rattle" and path.split(".")[1] in crates
        if not own:
            for it in m.group(2).split(","):
                yield it.strip().split(" as ")[0].strip()


def respelled(name):
    if name in ODD:
        return ODD[name]
    s = re.sub(r"([a-z0-9'])([A-Z])", r"\1_\2", name).replace("-", "_").lower()
    return s


def table(root):
    crates = set(os.listdir(os.path.join(root, "crates")))
    own, library, words = set(), set(), set()
    for p in files(root, ".antt"):
        text = read(p)
        if os.path.basename(p) not in OWN_FILES or os.path.basename(os.path.dirname(p)) in ("specs", "proofs"):
            own |= set(declared(text))
        library |= set(borrowed(text, crates))
        for line in text.split("\n"):
            words |= set(WORD.findall(parts(line)[0]))
    for p in files(root, ".rt"):
        text = read(p)
        library |= set(borrowed(text, crates))
    names = {n for n in own if NAME.fullmatch(n) and (re.search(r"[A-Z-]", n))}
    to = {n: respelled(n) for n in sorted(names - library)}
    plain = {v for n, v in to.items() if "-" not in n}
    # a lemma that would have its function's name
    to = {n: v + "_lem" if "-" in n and v in plain and n not in ODD else v for n, v in to.items()}
    to = {n: v for n, v in to.items() if v != n}
    return to, library, words, own


def turn(text, to):
    return WORD.sub(lambda m: to.get(m.group(0), m.group(0)), text)


def turn_antt(text, to):
    out = []
    for line in text.split("\n"):
        code, comment = parts(line)
        comment = re.sub(r"`([^`]*)`", lambda m: "`" + turn(m.group(1), to) + "`", comment)
        comment = WORD.sub(lambda m: to.get(m.group(0), m.group(0)) if "-" not in m.group(0) else m.group(0), comment)
        out.append(turn(code, to) + comment)
    return "\n".join(out)


def turn_rt(text, to):
    out, deep = [], 0
    for line in text.split("\n"):
        ghost = line.lstrip().startswith("ghost ")
        clause = re.match(r"\s*(requires|ensures)\b", line)
        if deep or clause or ghost:
            if not line.lstrip().startswith("//"):
                line = turn(line, to)
            if clause or deep:
                deep += line.count("{") - line.count("}")
        elif line.lstrip().startswith("//"):
            line = re.sub(r"`([^`]*)`", lambda m: "`" + turn(m.group(1), to) + "`", line)
        out.append(line)
    return "\n".join(out)


def turn_page(text, to):
    return re.sub(r"`([^`\n]*)`", lambda m: "`" + turn(m.group(1), to) + "`", text)


def main(argv):
    root = os.path.dirname(os.path.dirname(os.path.realpath(__file__)))
    to, library, words, own = table(root)
    back = {}
    for n, v in to.items():
        back.setdefault(v, []).append(n)
    for v, ns in sorted(back.items()):
        if len(ns) > 1:
            print(f"together: {', '.join(ns)} -> {v}")
        if v in words or v in library:
            print(f"taken: {ns[0]} -> {v}" + (" (declared)" if v in own else "") + (" (library)" if v in library else ""))
    print(f"{len(to)} names")
    if "--dry" in argv:
        return 0
    pages = [os.path.join(root, "README.md")] + [os.path.join(d, n) for d, _, ns in os.walk(os.path.join(root, "docs")) for n in ns if n.endswith(".md")]
    for paths, turned in ((files(root, ".antt"), turn_antt), (files(root, ".rt"), turn_rt), (pages, turn_page)):
        for p in paths:
            text = read(p)
            new = turned(text, to)
            if new != text:
                with open(p, "w", encoding="utf-8") as f:
                    f.write(new)
    return 0


if __name__ == "__main__":
    raise SystemExit(main(sys.argv[1:]))

#!/usr/bin/env python3
"""Run once, at the top of the repository, right after the kit's port.py: brings the other names of the definitions and lemmas to the
spelling of today's Rattle, where words are in snake case and types and modules in camel case. `maxCores` becomes `max_cores`,
`step-done` becomes `step_done`. Names of src/, exported C names, strings, inputs and outputs keep their spelling.

It goes by text: a name that crates/*/specs or crates/*/proofs declares is renamed wherever it stands as a word, but not where a file
takes that name from a library, and not in the prose of comments and documents (there only between backticks, or where it is no word of
prose). It stops if two names would fall together."""
import collections
import glob
import os
import re
import sys

DECLARED = re.compile(r"^\s*((?:(?:abbrev|unfoldable|pub|record|data)\s+)*)([^\s:(){}=,;]+)(.*)$")
WORD = re.compile(r"[A-Za-z_\u0370-\u03ff\u2080-\u2089\u2115][A-Za-z0-9_'\u2019\u0370-\u03ff\u2080-\u2089\u2190-\u21ff\u2264\u2260\u2261\u2115-]*")
USE = re.compile(r"^\s*(?:ghost )?(?:pub )?use ([^\s{]+?)\.\{([^}]*)\}", re.M)


def walked(path):
    """A proof that walks one function: its own names are Rattle's, only what it cites is ours."""
    return os.path.basename(path) == "Proof.antt"


def snake(name):
    name = name.replace("-", "_")
    return re.sub(r"(?<=[a-z0-9])([A-Z])(?=[a-z])", lambda m: "_" + m[1].lower(), name)


def ours(crates):
    names = set()
    for path in sorted(glob.glob("crates/*/specs/**/*.antt", recursive=True) + glob.glob("crates/*/proofs/**/*.antt", recursive=True)):
        if walked(path):
            continue
        for line in open(path, encoding="utf-8"):
            m = None if line.strip().startswith("--") else DECLARED.match(line)
            if m and "record" not in m[1].split() and "data" not in m[1].split() and re.match(r"\s*:(\s|$)", m[3]):
                names.add(m[2])
    return names


def turned(names):
    """The names that change, each with its new spelling."""
    return {n: snake(n) for n in names if not n[0].isupper() and snake(n) != n}


def from_libraries(text, crates):
    """The names that a file takes from elsewhere, and those that it takes from the repository."""
    away, home = set(), set()
    for module, words in USE.findall(text):
        it = re.match(r"Rattle\.(\w+)\.", module + ".")
        (home if it and it[1] in crates else away).update(w.strip().split(" as ")[0] for w in words.split(","))
    return away, home


def reword(text, change, comment):
    """The names of a text's lines; after a comment's sign only between backticks or in camel case, since `loop-free` is also prose."""
    def one(m):
        return change.get(m[0], m[0])

    def prose(part):
        part = re.sub(r"`[^`\n]*`", lambda q: WORD.sub(one, q[0]), part)
        return WORD.sub(lambda m: m[0] if "-" in m[0] else one(m), part)

    out = []
    for line in text.split("\n"):
        at = re.search(comment, line)
        k = at.start() if at else len(line)
        out.append(WORD.sub(one, line[:k]) + prose(line[k:]))
    return "\n".join(out)


def together(change, names, crates):
    """Names that would fall together in a file that has both: the lemma then gets `_lem`, as std's do beside their function."""
    by = collections.defaultdict(set)
    for n in names | set(change):
        by[change.get(n, n)].add(n)
    twins = {t: v for t, v in by.items() if len(v) > 1}
    for path in sorted(glob.glob("crates/*/specs/**/*.antt", recursive=True) + glob.glob("crates/*/proofs/**/*.antt", recursive=True)):
        if walked(path):
            continue
        words = set(WORD.findall(re.sub(r"--.*", "", open(path, encoding="utf-8").read())))
        for target, twin in twins.items():
            if len(twin & words) > 1:
                camel = {n for n in twin if re.search(r"[a-z0-9][A-Z]", n)}
                for n in twin - (camel or {target}):
                    change[n] = target + "_lem"


def main():
    crates = {os.path.basename(d) for d in glob.glob("crates/*")}
    names = ours(crates)
    change = turned(names)
    change.update({"core-apart": "cores_apart", "task-apart": "tasks_apart"})
    together(change, names, crates)
    bad, look = [], []
    for path in sorted(glob.glob("crates/*/specs/**/*.antt", recursive=True) + glob.glob("crates/*/proofs/**/*.antt", recursive=True)):
        text = open(path, encoding="utf-8").read()
        away, _ = from_libraries(text, crates)
        words = set(WORD.findall(re.sub(r"--.*", "", text)))
        bad += [f"{path}: {n} -> {t}, which the file takes from a library" for n, t in sorted(change.items()) if n in words and t in away]
        if not walked(path):
            bad += [f"{path}: {n} -> {t}, which stands there too" for n, t in sorted(change.items()) if n in words and t in words and t not in change]
    for path in sorted(glob.glob("crates/*/src/*.rt")):
        code = re.sub(r"//.*", "", open(path, encoding="utf-8").read())
        look += [f"{path}: {n} -> {t}, a name of the file too" for n, t in sorted(change.items()) if n in WORD.findall(code) and t in WORD.findall(code)]
    for line in bad + look:
        print("respell: " + line, file=sys.stderr)
    if bad:
        return 1
    if "--dry" in sys.argv:
        print({n: t for n, t in change.items() if t.endswith("_lem")})
        return 0
    # edits and pages were not turned by port.py, so they have the names that it respelled too, and fields apart from their value
    final = {change.get(n, n) for n in names}

    def late(m):
        n = m[0]
        return change.get(n, n if n in final or snake(n) not in final else snake(n))

    def older(text):
        return re.sub(r"(?<=[\w')]) \.(?=[a-z])", ".", WORD.sub(late, text))

    for path in sorted(glob.glob("crates/**/*.antt", recursive=True) + glob.glob("crates/*/src/*.rt") + glob.glob("crates/*/must-fail/*.edit")):
        text = open(path, encoding="utf-8").read()
        away, home = from_libraries(text, crates)
        here = {n: t for n, t in change.items() if n not in away and (not walked(path) or n in home)}
        if path.endswith(".rt"):
            text = reword(text, here, r"//")
        elif path.endswith(".edit"):
            text = "\n".join(older(l) if re.match(r"(old|new):", l) else l for l in text.split("\n"))
        else:
            text = reword(text, here, r"(^|\s)--(\s|$)")
        open(path, "w", encoding="utf-8").write(text)
    for path in sorted(glob.glob("docs/**/*.md", recursive=True) + ["README.md", "CONTRIBUTING.md"]):
        text = open(path, encoding="utf-8").read()
        text = re.sub(r"`[^`\n]*`", lambda q: older(q[0]), text)
        open(path, "w", encoding="utf-8").write(text)
    print(f"respell: {len(change)} names of {len(names)}")
    return 0


if __name__ == "__main__":
    raise SystemExit(main())

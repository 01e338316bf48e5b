"""Small changes of the rules' definitions, each tried on a copy of the crate: called by scripts/pin.

Changed are, one at a time: a numeral up or down by one; a comparison made strict or loose, or its sides exchanged; a statement made to
say nothing (both sides the same); a record's field or a premise dropped; one side of an operator dropped, or the sides exchanged; `&&` and
`||` exchanged; neighbouring arguments, list elements, record values and cases exchanged; a branch taken always; a carried value, a mark,
`suc` or `not` dropped; a field that is read, a case of the answer or a truth value exchanged for its neighbour. Comments, patterns and
signatures stay.

A change is no program if antt cannot read or type the specs themselves, or if proofs fail only for a name or a number of arguments that is
no longer there. It is refused if the changed specs are well formed and some value or proof of the crate fails; a proof that takes a dropped
field from a record fails for want of its fact. It is without an end if its check alone takes more than ALONE seconds of a processor. Else
it is left, and shown; the changes that are known to mean the same stand with their reasons in scripts/pin.same.
"""

import argparse
import concurrent.futures
import os
import re
import resource
import shutil
import signal
import subprocess
import sys
import tempfile
import threading
import time

# rt takes one crate a run; the checker beside it takes all copies
KIT = os.path.dirname(os.path.dirname(os.path.realpath(shutil.which("rt") or "rt")))
CRATE = "crates/rules"
SAME = "scripts/pin.same"
LEVELS = {"→": (0, "r"), "×": (1, "r"), "≡": (2, "n"), "≤": (2, "n"), "<": (2, "n"), "||": (3, "r"), "&&": (4, "r"), "∷": (5, "r"),
          "++": (5, "r"), "+": (6, "l"), "-": (6, "l"), "*": (7, "l"), "/": (7, "l"), "%": (7, "l"), "^": (8, "r")}
CLOSERS = {")", "]", "}", ";", ",", "|", "↦", "in", "=", ":"}
EITHER_WAY = {"eqb", "max", "bit_or"}
ANSWERS = [["Accepted", "FrameLength", "CoreCount", "TaskCount", "ShortTable", "NotTable", "ShortFinishes", "BadLine"],
           ["EmptyMask", "Budget", "JobList", "NoUnits"], ["Overloaded", "MissingCore"]]
DROPPED = {"put": 2, "drop": 1, "suc": 0, "not": 0, "insert": 1}
HOMES = {"Rattle.std.specs.Prelude": ["◌≤◌", "◌<◌", "leb", "ltb", "true", "false", "◌&&◌", "◌||◌"],
         "Rattle.rules.specs.declared.Answer.TheVariants": ANSWERS[0] + ANSWERS[1] + ANSWERS[2]}
# what an error's first line says of what rests on a refused declaration, and of a name or a number of arguments
FOLLOWS = re.compile(r"^.*(was not admitted|(was|were) not checked)")
FORM = re.compile(r"^.*(is not a field of|is applied to an argument but has type|binders, but its type|components but its type"
                  r"|needs a function .*type to bind|is not in scope)")
# a field that is read, as `.core` in `p.core`, is a word of its own
WORDS = re.compile(r"\[\]|[()\[\]{};,]|\.\w[\w-]*|(?:(?!\.\w)[^\s()\[\]{};,])+")
COPIES = 12
# seconds of a processor: for a run, and for a change that is tried alone
LONGEST = 90
ALONE = 15


class Token:
    def __init__(self, text, start, line, column):
        self.text, self.start, self.end, self.line, self.column = text, start, start + len(text), line, column


def tokens_of(source):
    """The lines of a file as lists of tokens, without comments and blank lines."""
    lines, at = [], 0
    for number, line in enumerate(source.splitlines(keepends=True), 1):
        comment = re.search(r"(^|\s)--( |$)", line)
        text = line[:comment.start()] if comment else line
        found = [Token(m.group(), at + m.start(), number, m.start() + 1) for m in WORDS.finditer(text)]
        if found:
            lines.append(found)
        at += len(line)
    return lines


def bodies_of(source):
    """The bodies in a file: what stands right of `=` in a clause, and the type of a record's field or of a constructor; with each the whole
    field where it is one."""
    lines, at = tokens_of(source), 0
    while at < len(lines):
        first = lines[at]
        words = [t.text for t in first]
        body, at = list(first), at + 1
        header = words[0] == "module" or words[:2] in (["pub", "record"], ["pub", "data"])
        while at < len(lines) and not (header and body[-1].text == "where") and lines[at][0].column > first[0].column:
            body += lines[at]
            at += 1
        if header or words[0] in ("use", "mod", "abbrev", "unfoldable") or words[:2] == ["pub", "mod"]:
            continue
        mark = ":" if words[0] == "pub" or words[1:2] == [":"] else "="
        yield body[next(i for i, t in enumerate(body) if t.text == mark) + 1:], body if words[0] == "pub" else None


class Node:
    def __init__(self, kind, parts, first, last, word=""):
        self.kind, self.parts, self.first, self.last, self.word = kind, parts, first, last, word


class Parser:
    def __init__(self, tokens):
        self.tokens, self.at = tokens, 0

    def peek(self):
        return self.tokens[self.at].text if self.at < len(self.tokens) else ""

    def take(self, wanted=None):
        token = self.tokens[self.at]
        if wanted and token.text != wanted:
            raise SyntaxError(f"{token.line}:{token.column}: '{token.text}' stands where '{wanted}' was expected")
        self.at += 1
        return token

    def infix(self, least=0):
        left = self.applied()
        while self.peek() in LEVELS and LEVELS[self.peek()][0] >= least:
            word = self.take().text
            level, side = LEVELS[word]
            right = self.infix(level if side == "r" else level + 1)
            left = Node("infix", [left, right], left.first, right.last, word)
        return left

    def applied(self):
        parts = [self.read()]
        while self.peek() and self.peek() not in CLOSERS and self.peek() not in LEVELS:
            parts.append(self.read())
        return parts[0] if len(parts) == 1 else Node("applied", parts, parts[0].first, parts[-1].last)

    def read(self):
        """An atom with the fields that are read of it."""
        node = self.atom()
        while re.match(r"\.\w", self.peek()) and self.tokens[self.at].start == node.last.end:
            field = self.take()
            node = Node("read", [node, Node("field", [], field, field, field.text)], node.first, field)
        return node

    def atom(self):
        word = self.peek()
        if word in ("λ", "let", "elim", "record", "(", "{"):
            return {"λ": self.function, "let": self.named, "elim": self.cases, "record": self.record, "(": self.group, "{": self.level}[word]()
        token = self.take()
        return Node("word", [], token, token, word)

    def function(self):
        first = self.take("λ")
        while not self.take().text.endswith("."):
            pass
        body = self.infix()
        return Node("function", [body], first, body.last)

    def named(self):
        first = self.take("let")
        while self.take().text != "=":
            pass
        value = self.infix()
        self.take("in")
        body = self.infix()
        return Node("named", [value, body], first, body.last)

    def cases(self):
        first = self.take("elim")
        on = self.atom()
        self.take("[")
        bodies = []
        while self.peek() != "]":
            while self.take().text != "↦":
                pass
            bodies.append(self.infix())
        return Node("cases", [on] + bodies, first, self.take("]"))

    def record(self):
        first = self.take("record")
        self.take("{")
        values = []
        while self.peek() != "}":
            self.take()
            self.take("=")
            values.append(self.infix())
            if self.peek() == ";":
                self.take()
        return Node("record", values, first, self.take("}"))

    def level(self):
        first = self.take("{")
        while self.take().text != "}":
            pass
        return Node("level", [], first, self.tokens[self.at - 1])

    def group(self):
        first = self.take("(")
        parts = [self.infix()]
        if self.peek() == ":":
            self.take()
            kind = self.infix()
            return Node("binder", [kind], first, self.take(")"))
        while self.peek() == ",":
            self.take()
            parts.append(self.infix())
        return Node("group", parts, first, self.take(")"))


class Changes:
    """All changes of one file: each a list of (start, end, text)."""

    def __init__(self, source, fields):
        self.source, self.fields, self.found = source, fields, []
        for body, field in bodies_of(source):
            if field:
                self.found.append((field[0], [(field[0].start, field[-1].end, "")]))
            parser = Parser(body)
            tree = parser.infix()
            if parser.peek():
                raise SyntaxError(f"{body[parser.at].line}: '{parser.peek()}' was not expected")
            self.walk(tree)

    def text(self, node):
        return self.source[node.first.start:node.last.end]

    def put(self, node, text):
        self.found.append((node.first, [(node.first.start, node.last.end, text)]))

    def exchange(self, a, b):
        if unnamed(self.text(a)) != unnamed(self.text(b)):
            self.found.append((a.first, [(a.first.start, a.last.end, self.text(b)), (b.first.start, b.last.end, self.text(a))]))

    def walk(self, node):
        getattr(self, "on_" + node.kind, lambda n: None)(node)
        for part in node.parts:
            self.walk(part)

    def on_word(self, node):
        word = node.word
        if re.fullmatch(r"0x[0-9a-f]+|0b[01]+|[0-9]+", word):
            for value in (int(word, 0) + 1, int(word, 0) - 1):
                if value >= 0:
                    self.put(node, written_as(word, value))
        self.put_next(node, word)
        for old, new in (("ltb", "leb"), ("leb", "ltb"), ("eqb", "leb"), ("true", "false"), ("false", "true")):
            if word == old:
                self.put(node, new)

    def put_next(self, node, word):
        for row in ANSWERS:
            if word in row:
                self.put(node, row[(row.index(word) + 1) % len(row)])

    def on_field(self, node):
        for row in self.fields:
            if node.word[1:] in row and len(row) > 1:
                self.put(node, "." + row[(row.index(node.word[1:]) + 1) % len(row)])

    def on_infix(self, node):
        left, right = node.parts
        a, b, word = self.text(left), self.text(right), node.word
        if word in ("≡", "≤"):
            self.put(left, b)
        if word == "<":
            self.put(node, f"{a} ≤ {a}")
        if word in ("≤", "<"):
            self.exchange(left, right)
            self.put(node, f"{a} {'<' if word == '≤' else '≤'} {b}")
        if word in ("&&", "||"):
            self.put(node, f"{a} {'||' if word == '&&' else '&&'} {b}")
        if word in ("-", "/", "%", "^", "++"):
            self.exchange(left, right)
        if word == "∷" and right.kind == "infix" and right.word == "∷":
            self.exchange(left, right.parts[0])
        if word == "∷" or (word in ("→", "×") and left.kind != "binder"):
            self.put(node, b)
        if word in ("×", "&&", "||", "++", "+", "-", "*", "/", "%", "^"):
            self.put(node, a)
        if word in ("&&", "||", "++", "+", "*"):
            self.put(node, b)

    def on_applied(self, node):
        head, parts = node.parts[0], node.parts
        if head.word in ("Type", "Unit"):
            node.parts = []
            return
        for a, b in zip(parts[1:], parts[2:]):
            if head.word not in EITHER_WAY:
                self.exchange(a, b)
        if head.word == "cond":
            self.put(node, self.text(parts[2]))
            self.put(node, self.text(parts[3]))
        if len(parts) == DROPPED.get(head.word, 9) + 2:
            self.put(node, self.text(parts[-1]))

    def on_cases(self, node):
        for a, b in zip(node.parts[1:], node.parts[2:]):
            self.exchange(a, b)

    def on_record(self, node):
        for a, b in zip(node.parts, node.parts[1:]):
            self.exchange(a, b)


def unnamed(text):
    """A text without the names of its functions' arguments: `λ j. 0` and `λ t. 0` are the same."""
    return re.sub(r"λ \w+\.", "λ.", text)


def written_as(word, value):
    """A value in the base and width of the numeral that it replaces."""
    if word[:2] in ("0x", "0b"):
        return word[:2] + format(value, word[1]).rjust(len(word) - 2, "0")
    return str(value)


def fields_of(sources):
    """The fields of each record whose fields are of one type, as `core`, `task`, `start`, `len`."""
    rows = []
    for source in sources:
        for record in re.split(r"^ *pub record ", source, flags=re.M)[1:]:
            rows.append(re.findall(r"^ +pub ([\w-]+) : ℕ(?: → ℕ)?$", record.split("\n\n")[0], flags=re.M))
    return rows


class Change:
    def __init__(self, name, source, token, edits):
        self.name = name
        self.text = source
        for start, end, text in sorted(edits, reverse=True):
            self.text = self.text[:start] + text + self.text[end:]
        low, high = min(e[0] for e in edits), max(e[1] for e in edits)
        self.old = squeezed(source[source.rfind("\n", 0, low) + 1:(source + "\n").index("\n", high)])
        late = high + len(self.text) - len(source)
        self.new = squeezed(self.text[self.text.rfind("\n", 0, low) + 1:(self.text + "\n").index("\n", late)])
        self.text = with_imports(self.text)
        self.place = f"specs/{name}.antt:{token.line}:{token.column}"
        self.key = f"{name}: {self.new or 'without ' + self.old}"


def with_imports(text):
    """The text with each word imported that a change may have brought in."""
    uses = "".join(re.findall(r"^use .*\n", text, flags=re.M))
    bare = re.sub(r"(^|\s)--( .*)?$|^use .*$", "", text, flags=re.M)
    for home, words in HOMES.items():
        for word in words:
            wanted = re.search(r"(?<![^\s(])" + re.escape(word.strip("◌")) + r"(?![^\s);])", bare)
            if wanted and not re.search(r"[{ ]" + re.escape(word) + "[,}]", uses):
                line = f"use {home}.{{"
                text = text.replace(line, line + word + ", ", 1) if line in text else text.replace("use ", line + word + "}\nuse ", 1)
    return text


def squeezed(text):
    return " ".join(text.split())


def changes_of(names):
    folder = CRATE + "/specs/"
    sources = {f[:-5]: open(folder + f, encoding="utf-8").read() for f in sorted(os.listdir(folder)) if f.endswith(".antt")}
    fields = fields_of(sources.values())
    found, seen = [], set()
    for name in names or [n for n in sources if n != "Lib"]:
        for token, edits in Changes(sources[name], fields).found:
            change = Change(name, sources[name], token, edits)
            if change.text != sources[name] and (name, change.text) not in seen:
                seen.add((name, change.text))
                found.append(change)
    return found


class Bench:
    """Copies of the crate under names of their own, so that one run of rattle checks many changes, and what a check of the copies saved."""

    def __init__(self, room, size):
        self.room, self.size, self.local = room, size, threading.local()
        self.first = room + "/first"
        os.makedirs(self.first + "/top/src")
        with open(self.first + "/top/src/lib.rt", "w", encoding="utf-8") as file:
            file.write("// Nothing: the copies of the crate are checked beside it.\n")
        for copy in range(size):
            shutil.copytree(CRATE, f"{self.first}/rules{copy}", ignore=shutil.ignore_patterns("must-fail", "out"))
            for folder, _, files in os.walk(f"{self.first}/rules{copy}"):
                for name in files:
                    # derived comparisons rest on no definition, and their proofs would take most of a check
                    text = open(f"{folder}/{name}", encoding="utf-8").read().replace(", PartialEq, Eq)]", ")]")
                    self.write(f"{folder}/{name}", text, copy)
        os.mkdir(self.first + "/saved")
        status, said = self.check(self.first, range(size))
        if status != 0:
            sys.exit("pin: the crate `rules` is not proved as it stands:\n" + said[:4000])

    def write(self, path, text, copy):
        with open(path, "w", encoding="utf-8") as file:
            file.write(text.replace("Rattle.rules.", f"Rattle.rules{copy}."))

    def check(self, folder, copies):
        words = [KIT + "/bin/rattle", "check", "--crate-name", "top", folder + "/top/src/lib.rt", "--incremental", folder + "/saved"]
        for name in ("core", "std"):
            words += ["--extern", f"{name}={KIT}/rlibs/{name}.rlib"]
        for copy in copies:
            words += ["--lib", f"rules{copy}:core,std={folder}/rules{copy}/src/lib.rt"]
        words += ["-L", f"dependency={KIT}/rlibs", "--antt-project", KIT + "/rattle/logic/antt-project.json", "--logic-built", KIT + "/logic_built"]
        seconds = LONGEST if len(copies) > 1 else ALONE
        limit = lambda: resource.setrlimit(resource.RLIMIT_CPU, (seconds, seconds))
        done = subprocess.run(words, stdout=subprocess.PIPE, stderr=subprocess.STDOUT, cwd=self.room, stdin=subprocess.DEVNULL, preexec_fn=limit)
        return done.returncode, done.stdout.decode("utf-8", "replace")

    def own(self):
        if not hasattr(self.local, "folder"):
            self.local.folder = tempfile.mkdtemp(dir=self.room) + "/own"
            shutil.copytree(self.first, self.local.folder)
        return self.local.folder

    def tried(self, changes):
        """What becomes of some changes, one in each copy; where antt cannot tell, they are tried one by one."""
        folder = self.own()
        shutil.rmtree(folder + "/saved")
        shutil.copytree(self.first + "/saved", folder + "/saved")
        for copy, change in enumerate(changes):
            self.write(f"{folder}/rules{copy}/specs/{change.name}.antt", change.text, copy)
        status, said = self.check(folder, range(len(changes)))
        for copy, change in enumerate(changes):
            shutil.copy(f"{self.first}/rules{copy}/specs/{change.name}.antt", f"{folder}/rules{copy}/specs/{change.name}.antt")
        if status not in (0, 1) and len(changes) > 1:
            return [found for change in changes for found in self.tried([change])]
        return [verdict(status, said, copy) for copy in range(len(changes))]


def verdict(status, said, copy):
    """What a run says of one copy: what became of its change, and the lines that say so."""
    own = re.findall(rf"^\S*/rules{copy}/\S+: error: .*(?:\n  .*)*", said, flags=re.M)
    if status not in (0, 1):
        return "no end", said[-400:]
    if not own:
        proved = all(re.search(rf"^fn rules{copy}::{name}::from: proved", said, flags=re.M) for name in ("U8FromAnswer", "AnswerFromResultUnitAnswer"))
        return ("left", "") if proved else ("refused", "a conversion of an answer: not proved")
    if any("/specs/" in error.split(": error:")[0] for error in own):
        return "no program", own[0]
    roots = [error for error in own if not FOLLOWS.match(error)]
    if all(FORM.match(error) for error in roots):
        return "no program", (roots or own)[0]
    return "refused", next(error for error in roots if not FORM.match(error))


def known_same():
    """The changes that mean the same, with the reason above them: lines `Name: changed text`."""
    if not os.path.exists(SAME):
        return set()
    return {line.strip() for line in open(SAME, encoding="utf-8") if line.strip() and not line.startswith("#")}


def asked():
    words = argparse.ArgumentParser(prog="scripts/pin")
    words.add_argument("-n", type=int, default=os.cpu_count() or 1, metavar="COUNT", help="how many at once")
    words.add_argument("-a", metavar="FILE", help="only the changes that an earlier run listed in FILE")
    words.add_argument("-v", action="store_true", help="show every change and what refused it")
    words.add_argument("names", nargs="*", metavar="NAME", help="only the changes of this file of crates/rules/specs")
    return words.parse_args()


def wanted(given):
    changes = changes_of([os.path.basename(name).replace(".antt", "") for name in given.names])
    if given.a:
        listed = {line.strip() for line in open(given.a, encoding="utf-8")}
        changes = [change for change in changes if "+ " + change.key in listed]
    return changes


def outcomes(changes, count):
    """Each change with what became of it and why, in their order; the copies are gone at the end, however it comes."""
    room = tempfile.mkdtemp(prefix="pin.")
    pool = concurrent.futures.ThreadPoolExecutor(count)
    try:
        bench = Bench(room, min(COPIES, len(changes)))
        batches = [changes[at:at + COPIES] for at in range(0, len(changes), COPIES)]
        for batch, found in zip(batches, pool.map(bench.tried, batches)):
            yield from ((change, what, why) for change, (what, why) in zip(batch, found))
    finally:
        pool.shutdown(cancel_futures=True)
        shutil.rmtree(room, ignore_errors=True)


def main():
    signal.signal(signal.SIGTERM, lambda *_: sys.exit(143))
    given = asked()
    changes, same, counts, begun = wanted(given), known_same(), {}, time.time()
    for done, (change, what, why) in enumerate(outcomes(changes, given.n), 1):
        what = "same" if what == "left" and change.key in same else what
        counts[what] = counts.get(what, 0) + 1
        show(change, what, why, given.v)
        if done % 240 == 0:
            print(f"pin: {done} of {len(changes)} changes, {int(time.time() - begun)} s", file=sys.stderr, flush=True)
    count = lambda word: counts.get(word, 0)
    print(f"{len(changes)} changes: {count('no program')} no program, {count('refused')} refused, {count('no end')} without an end, "
          f"{count('same')} mean the same ({SAME}), {count('left')} left ({int(time.time() - begun)} s)")
    sys.exit(1 if count("left") else 0)


def show(change, what, why, fully):
    if what in ("left", "no end") or fully:
        print(f"{change.place}: {what}\n  - {change.old}\n  + {change.key}", flush=True)
    if fully and why:
        print("  ! " + re.sub(r"\S*/rules[0-9]+/", "", why)[:600], flush=True)


if __name__ == "__main__":
    main()

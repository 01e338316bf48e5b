#!/usr/bin/env python3
"""Counts the places of each point of docs/DESIGN-PASS.md: `tools/places.py [COMMIT] [POINT]` lists them in a commit, or in the tree as it stands."""
import re, subprocess, sys

args = sys.argv[1:]
if args and args[0] in ('-h', '--help'):
    sys.exit(__doc__)
point = args.pop() if args and re.fullmatch('[1-8]', args[-1]) else None
commit = args[0] if args else None


def sh(*a):
    return subprocess.run(a, capture_output=True, text=True, check=True).stdout


def files(pattern):
    names = sh('git', 'ls-tree', '-r', '--name-only', commit) if commit else sh('git', 'ls-files', '-co', '--exclude-standard')
    return [f for f in names.split('\n') if re.fullmatch(pattern, f)]


def read(f):
    return sh('git', 'show', f'{commit}:{f}') if commit else open(f).read()


SRC = {}
for f in files(r'crates/[^/]+/src/.*\.rt'):
    try:
        SRC[f] = read(f)
    except FileNotFoundError:
        pass
FN = re.compile(r'^( *)(?:pub(?:\(crate\))? )?(?:extern "C" )?fn (\w+)', re.M)


def functions():
    """Each function: file, name, parameters, the lines of its `requires`, and its body."""
    for f, text in SRC.items():
        for m in FN.finditer(text):
            i = text.index('(', m.end())
            depth, j = 0, i
            while True:
                depth += {'(': 1, ')': -1}.get(text[j], 0)
                if depth == 0:
                    break
                j += 1
            end = re.compile(r'^' + m.group(1) + r'(?:\}|\{\})$|;$', re.M).search(text, j)
            head = text[j:end.end()]
            parts = re.split(r'^' + m.group(1) + r'\{$|\{\n', head, maxsplit=1, flags=re.M)
            names = re.findall(r'(?:mut )?(\w+):(?!:)', text[i:j])
            yield f, m.group(2), names, head, text[i:j]


def lines(pattern):
    for f, text in SRC.items():
        for n, line in enumerate(text.split('\n'), 1):
            if re.search(pattern, line):
                yield f'{f}:{n}: {line.strip()}'


def found(title, items):
    items = list(items)
    print(f'  {title}: {len(items)}')
    for i in items:
        print(f'      {i}')


def p1():
    found('enums', lines(r'^(pub(\(crate\))? )?enum '))
    found('flags in a struct', lines(r'^\s+(pub(\(crate\))? )?\w+: bool,'))
    found('an answer or a flag beside a count', lines(r'^\s+pub answer: Answer,'))
    found('numbers that stand for none, said in a comment', lines(r'^\s*// .*(where there is none|where all are gone|where it does not stand|is no call|hands back 0|; 0 (for|where)|with 0\b|The same for cores)'))
    found('numbers below 2', lines(r'(result|gone|shown|bit|result\.\w+) (<|≤) [12]\b'))


def p2():
    found('functions of one name, or of names that differ in row and column, core and task, word and release', sorted(
        f'{f}: {n}' for f, n, *_ in functions()
        if re.search(r'^(task|core|loose|other|row|column|ahead|place_of|part|least|lesser|later|wide|walk|answer|next|put_answer|put_bad_line|read_words|read_releases|begin|expand|first_of|second_of|test_(empty|missing|budgets)|first_(bad_job|asking)|with_|start)(_|$)|_(core|task|links|sum|of|in|at)$', n)))


def p3():
    found('while and loop', lines(r'^\s*(while |loop \{)'))
    found('index stepped by hand', lines(r'^\s*\w+ (\+|-)= 1;|^\s*let next = \w+ \+ 1;'))


def p4():
    found('casts', lines(r' as (u8|u16|u32|u64|usize)\b'))
    found('comparisons of an answer by its number', lines(r'number(\(.*)? (==|!=) 0'))
    found('one of two numbers by hand', lines(r'^\s+if \w+ < \w+ \{ \w+ \} else \{ \w+ \}$'))


def p5():
    facts, runs = {}, {}
    for f, n, names, head, _ in functions():
        crate = f.split('/')[1]
        for c in re.findall(r'^\s+requires (?:\w+ )?\{(.*?)\}\n', head, re.M | re.S):
            for fact in re.split(r' ×\s', c):
                fact = ' '.join(fact.split()).strip('() ')
                facts.setdefault((crate, fact), []).append(n)
        for a in range(len(names)):
            for b in range(a + 2, len(names) + 1):
                runs.setdefault((crate, tuple(sorted(names[a:b]))), set()).add(n)
    found('facts in the requires of three functions', sorted(f'{k[0]}: {k[1]}: {", ".join(v)}' for k, v in facts.items() if len(v) > 2))
    big = {k: v for k, v in runs.items() if len(v) > 2}
    top = {k: v for k, v in big.items() if not any(k[0] == o[0] and set(k[1]) < set(o[1]) and v == w for o, w in big.items())}
    found('parameters side by side in three functions', sorted(f'{k[0]}: {", ".join(k[1])}: {len(v)}' for k, v in top.items()))


def p6():
    found('lists walked side by side, or a list with its count', sorted(
        f'{f}: {n}({", ".join(names)})' for f, n, names, head, ps in functions()
        if len(re.findall(r': &(?:mut )?\[', ps)) > 1 or re.search(r'\[[^\]]*\],\s*(from|count|len|used): usize', ps)))


def p7():
    found('match on a number, or a number that says which', lines(r'^\s*match \w+\(|^\s+\d+ => |\b(shown|kind|which): '))


def p8():
    plain = []
    for f in files(r'crates/[^/]+/proofs/.*/Answers\.antt'):
        try:
            plain += [f'{f}: {m}' for m in re.findall(r'^.* = search rules$', read(f), re.M)]
        except FileNotFoundError:
            pass
    found('answers that say only `search rules`', plain)
    found('files of answers and invariants', files(r'crates/[^/]+/proofs/.+/(Answers|Invariants)\.antt'))


for n, p in enumerate((p1, p2, p3, p4, p5, p6, p7, p8), 1):
    if point in (None, str(n)):
        print(f'point {n}')
        p()

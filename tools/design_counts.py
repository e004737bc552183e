#!/usr/bin/env python3
"""Counts the places of the eight design points by the shape of the code: the second way of counting, beside the patterns of docs/DESIGN-PASS.md.

usage: tools/design_counts.py [--at COMMIT] [POINT..]

Run at the top of the repository. It reads crates/*/src/**/*.rt and crates/*/proofs/**/*.antt as text, in the working tree or at COMMIT, and prints for each
point the number of places and then each place as `file:line` with what it is. It knows no name of this repository: it looks at types, functions, their
parameters and clauses, loops, matches, constants and literals. A place is somewhere to look, not a fault: what is right as it stands is listed too.
"""
import collections
import itertools
import os
import re
import subprocess
import sys

args = sys.argv[1:]
COMMIT = args[args.index("--at") + 1] if "--at" in args else None
POINTS = [int(a) for a in args if len(a) == 1 and a.isdigit()] or list(range(1, 9))

def git(*words):
    return subprocess.run(["git", *words], capture_output=True, text=True, check=True).stdout

def read(kind):
    """The files of a kind, by name."""
    names = git("ls-tree", "-r", "--name-only", COMMIT, "crates") if COMMIT else git("ls-files", "crates")
    wanted = [n for n in names.split("\n") if re.fullmatch(kind, n) and (COMMIT or os.path.isfile(n))]
    return {n: git("show", f"{COMMIT}:{n}") if COMMIT else open(n, encoding="utf-8").read() for n in wanted}

def bare(text):
    """The text without comments and without what strings hold; each line keeps its place."""
    return re.sub(r'//[^\n]*|"(?:\\.|[^"\\])*"', lambda m: '""' if m[0][0] == '"' else "", text)

def closed(text, i, pair="{}"):
    """The place behind the bracket that closes the one at i."""
    depth = 0
    for j in range(i, len(text)):
        depth += (text[j] == pair[0]) - (text[j] == pair[1])
        if depth == 0:
            return j + 1
    return len(text)

SOURCES = {n: bare(t) for n, t in read(r"crates/\w+/src/.*\.rt").items()}
Fn = collections.namedtuple("Fn", "file line name params answer clauses body owner")
squeeze = lambda t: re.sub(r"\s+", " ", t).strip()
line_of = lambda text, i: text.count("\n", 0, i) + 1
def functions(name, text):
    owners = [(m.start(), closed(text, m.end() - 1), squeeze(m[1])) for m in re.finditer(r"^(?:pub )?((?:impl|trait)\b[^{;]*)\{", text, re.M)]
    for m in re.finditer(r"\bfn (\w+)(?:<[^(]*>)?\(", text):
        end = closed(text, m.end() - 1, "()")
        params = [tuple(squeeze(w) for w in p.split(":", 1)) for p in re.split(r",(?![^(<\[]*[)>\]])", text[m.end():end - 1]) if ":" in p]
        params += [("self", squeeze(s)) for s in re.findall(r"&mut self|&self|\bself\b", text[m.end():end - 1])[:1]]
        at = re.compile(r"\s*(?:->\s*((?:[^{;\s]|\s(?!\s*(?:requires|ensures|\{)))+))?").match(text, end)
        i, clauses = at.end(), []
        while c := re.compile(r"\s*(requires|ensures)\s*(\w*)\s*\{").match(text, i):
            i = closed(text, c.end() - 1)
            clauses.append((c[1], c[2], squeeze(text[c.end():i - 1]), line_of(text, c.start(1))))
        start = re.compile(r"\s*\{").match(text, i)
        body = text[start.end():closed(text, start.end() - 1) - 1] if start else ""
        owner = next((o for a, b, o in owners if a < m.start() < b), "")
        yield Fn(name, line_of(text, m.start()), m[1], params, squeeze(at[1] or ""), clauses, body, owner)

FUNCTIONS = [f for n, t in SOURCES.items() for f in functions(n, t)]
ENUMS = {m[1]: (n, line_of(t, m.start()), re.findall(r"^ {4}\s*(\w+)(\(|\s*\{)?", t[m.end():closed(t, m.end() - 1)], re.M))
         for n, t in SOURCES.items() for m in re.finditer(r"\benum (\w+)[^{]*\{", t)}
STRUCTS = [(n, line_of(t, m.start()), m[1], [f for f in re.findall(r"^\s*(?:pub(?:\(crate\))? )?(\w+): ([^{\n]+),$", t[m.end():closed(t, m.end() - 1)], re.M)])
           for n, t in SOURCES.items() for m in re.finditer(r"\bstruct (\w+)[^{;(]*\{", t)]

def hits(pattern, what):
    for n, t in SOURCES.items():
        for m in re.finditer(pattern, t):
            yield n, line_of(t, m.start()), f"{what}: {squeeze(m[0])[:70]}"

def here(f, what):
    return f.file, f.line, f"{what}: {f.name}"

def groups(pairs, least=2):
    """The places under each key that has so many of them."""
    by = collections.defaultdict(list)
    for key, place in pairs:
        by[key].append(place)
    return {k: v for k, v in by.items() if len(v) >= least}

def shape(body):
    words = re.findall(r"\w+|[^\w\s]", body)
    keep = {"for", "in", "if", "else", "match", "return", "let", "mut", "while", "as", "self", "Some", "None", "Ok", "Err"}
    return ["0" if w[0].isdigit() else w if w in keep or not w[0].isalpha() else "x" for w in words]

def one():
    for name, (n, l, variants) in ENUMS.items():
        data = sum(1 for v in variants if v[1])
        if data:
            yield n, l, f"enum with values in {data} of {len(variants)} variants: {name}"
    yield from ((n, l, f"flag in a type: {s}.{f}") for n, l, s, fields in STRUCTS for f, t in fields if t == "bool")
    yield from (here(f, f"flag as a parameter ({p})") for f in FUNCTIONS for p, t in f.params if t == "bool")
    yield from (here(f, "answers yes or no, and changes") for f in FUNCTIONS if f.answer == "bool" and any(t.startswith("&mut") for _, t in f.params))
    yield from (here(f, "numbers for variants") for f in FUNCTIONS if len(re.findall(r"\w::\w+(?:\(\w+\))? => \d+,", f.body)) > 1)
    yield from hits(r"\bconst \w+: u8 = [^;]+;", "number as a constant")
    yield from hits(r"let (?:Ok|Some)\([^=;]*= [^;{]*\belse\b", "let else")
    yield from hits(r"\bif let Err\(_\)|\b(?:Some\(\w+\) => Some|Ok\([\w()]*\) => Ok|Err\(\w+\) => (?:Err|\w+::\w+)|None => None)\b", "packed again")
    yield from hits(r"None => (?:false|true|\{\})|Some\(_\) => (?:\{\}|false|true)|(?:Ok\(\(\)\)|Err\(_\)) => \{\}", "match where a method stands")
    yield from hits(r"let (\w+) = [^;]*\?;\s*Ok\(\1\)\s*\}", "let x = ..?; Ok(x)")
    for e in sorted({e for f in FUNCTIONS for e in re.findall(r"^Result<.*, (\w+)>$", f.answer)}):
        declared = [(n, line_of(t, m.start())) for n, t in SOURCES.items() for m in re.finditer(rf"\b(?:enum|struct) {e}\b", t)]
        if declared and not any(re.search(rf"\bError for {e}\b", t) for t in SOURCES.values()):
            yield (*declared[0], f"error type that is no Error: {e}")

def two():
    for same in groups(((tuple(shape(f.body)), f) for f in FUNCTIONS if len(shape(f.body)) > 24)).values():
        yield from (here(f, "same shape as " + ", ".join(g.name for g in same if g is not f)) for f in same)
    bags = [(f, {tuple(s[i:i + 5]) for i in range(len(s) - 4)}) for f in FUNCTIONS for s in [shape(f.body)] if len(s) > 60 and "_tests/" not in f.file]
    for (f, a), (g, b) in itertools.combinations(bags, 2):
        if a != b and len(a & b) > 0.6 * len(a | b):
            yield here(f, f"nearly the shape of {g.name} ({g.file}:{g.line})")
    for name, same in groups(((f.name, f) for f in FUNCTIONS if " for " not in f.owner and not f.owner.startswith("trait") and f.name != "main")).items():
        yield from (here(f, f"{len(same)} functions of one name") for f in same)
    consts = [(m[2].replace("_", ""), (n, line_of(t, m.start()), m[1])) for n, t in SOURCES.items() for m in re.finditer(r"\bconst (\w+): [^=]+ = ([^;{]+);", t)]
    number = lambda v: str(int(v, 0)) if re.fullmatch(r"0x[0-9a-f]+|\d+", v) else v
    for value, same in groups((number(v), p) for v, p in consts).items():
        yield from ((n, l, f"constant of the value {value}: {name}") for n, l, name in same)
    literals = [(squeeze(m[0]), (n, line_of(t, m.start()))) for n, t in SOURCES.items() for m in re.finditer(r"\b[A-Z]\w+ \{[^{}]*\d[^{}]*\}", t)]
    for text, same in groups(literals).items():
        yield from ((n, l, f"value written out {len(same)} times: {text[:60]}") for n, l in same)
    for value, same in groups(((m[0], (f.file, f.line)) for f in FUNCTIONS for m in re.finditer(r"\b(?:[1-9]\d+|8)\b(?!\.)", f.body) if "_tests/" not in f.file), 3).items():
        yield from ((n, l, f"bare number {value}") for n, l in sorted(set(same)))

def three():
    for n, t in SOURCES.items():
        for m in re.finditer(r"\bfor (\w+) in ([^{]*?\.\.[^{]*)\{|\b(while|loop)\b[^{]*\{", t):
            body = t[m.end():closed(t, m.end() - 1)]
            used = m[1] and re.search(rf"\[[^\]]*\b{m[1]}\b|\.get\w*\(&?{m[1]}\b", body)
            what = m[3] or ("so many turns" if m[1][0] == "_" else "an index" if used else "a number")
            yield n, line_of(t, m.start()), f"{what}: {squeeze(m[0])[:60]}"

def four():
    for f in FUNCTIONS:
        types = collections.Counter(t.lstrip("&") for p, t in f.params if p != "self")
        own = f.owner.split(" for ")[-1].replace("impl", "").strip()
        if f.answer == "bool" and (any(c > 1 and t[:1].isupper() for t, c in types.items()) or types[own] or types["Self"]):
            yield here(f, "compares two of one type")
        elif any("mut String" in t for _, t in f.params) or f.answer.startswith(("&'static str", "Result<String")):
            yield here(f, "makes text")
        elif f.name in ("cmp", "partial_cmp", "eq", "clone", "default"):
            yield here(f, "a trait's function by hand")
        elif len(re.findall(r"\w::\w+(?:\([^)]*\))? => (?:\d+|\"\"|true|false),?", f.body)) > 1:
            yield here(f, "a value for each variant")
    yield from hits(r"\b[A-Z]\w+ \{(?:\s*\w+: 0,?){2,}\s*\}", "zeros written out")

def five():
    spell = lambda f, text: re.sub(r"\b(?:%s)\b(?!\.)" % "|".join([p for p, _ in f.params if p != "self"] or ["\0"]), "_", text)
    for text, same in groups(((k, spell(f, t)), (f.file, l)) for f in FUNCTIONS for k, _, t, l in f.clauses).items():
        if len(same) > 2:
            yield from ((n, l, f"{text[0]} of {len(same)} functions: {text[1][:60]}") for n, l in same)
    pairs = groups(((a, b), f) for f in FUNCTIONS for a, b in itertools.combinations(sorted(p for p in f.params if p[0] not in ("self", "rt")), 2))
    for (a, b), same in pairs.items():
        if len(same) > 2:
            yield from (here(f, f"{a[0]}: {a[1]} with {b[0]}: {b[1]} in {len(same)} functions") for f in same)

def six():
    array = re.compile(r"\[.+; .+\]")
    for n, l, s, fields in STRUCTS:
        sizes = collections.Counter(t.rsplit(";", 1)[1] for _, t in fields if array.fullmatch(t))
        for f, t in fields:
            if array.fullmatch(t):
                beside = any(re.fullmatch(r"u\d+|usize", u) for _, u in fields)
                yield n, l, f"array in a type{', one of the same length beside it' if sizes[t.rsplit(';', 1)[1]] > 1 else ''}{', a number beside it' if beside else ''}: {s}.{f}"
    yield from (here(f, f"array as a parameter or answer ({t})") for f in FUNCTIONS for t in [t for _, t in f.params] + [f.answer] if array.search(t))
    yield from (here(f, "a slice and a place in it") for f in FUNCTIONS if any("[" in t for _, t in f.params) and any(t == "usize" for _, t in f.params))
    yield from hits(r"VecDeque<", "deque")

def seven():
    own = {t: len(re.findall(rf"\bimpl(?:<[^>]*>)? {t}(?:<[^>]*>)? for ", "\n".join(SOURCES.values()))) for t in re.findall(r"\btrait (\w+)", "\n".join(SOURCES.values()))}
    for n, t in SOURCES.items():
        for m in re.finditer(r"\bmatch ([^{]+) \{", t):
            kinds = collections.Counter(re.findall(r"(\w+)::\w+[^,;]*=>", t[m.end():closed(t, m.end() - 1)]))
            if any(k in ENUMS and c > 1 for k, c in kinds.items()):
                yield n, line_of(t, m.start()), f"switch on {squeeze(m[1])[:40]}"
        for m in re.finditer(r"\bfn (\w+)<([^(]*)>\(", t):
            if any(own.get(b, 0) > 1 for b in re.findall(r"\w+", m[2])):
                yield n, line_of(t, m.start()), f"over a trait with several impls: {m[1]}"
    yield from (here(f, f"flag that switches ({p})") for f in FUNCTIONS for p, t in f.params if t == "bool" and re.search(rf"\bif !?{p}\b|\b{p} ?[&|]", f.body))

def eight():
    proofs = read(r"crates/\w+/proofs/.*\.antt")
    lines = [(squeeze(l), (n, i)) for n, t in proofs.items() for i, l in enumerate(t.split("\n"), 1) if re.match(r"\s+let \w+ |\s+unfolding ", l)]
    for text, same in groups(lines, 3).items():
        yield from ((n, l, f"line that stands {len(same)} times: {text[:60]}") for n, l in same)
    stated = [(re.sub(r"[\w'-]+(?= :)|\([\w' ]+ : [^()]*\) → ", "", squeeze(m[2])), (n, line_of(t, m.start()), m[1])) for n, t in proofs.items()
              for m in re.finditer(r"^ *(?:pub )?([\w'-]+) : (.{30,})$", t, re.M) if "goal." not in m[2]]
    for _, same in groups(stated).items():
        yield from ((n, l, f"states what {len(same) - 1} more do, but for names: {name}") for n, l, name in same)

TITLES = ["own enums, flags, numbers", "twins", "loops", "equality, order, conversion, printing", "facts of several contracts", "arrays", "switches", "proofs"]
for point, places in enumerate([one, two, three, four, five, six, seven, eight], 1):
    if point in POINTS:
        found = sorted(set(places()))
        print(f"point {point}, {TITLES[point - 1]}: {len(found)} places, on {len({p[:2] for p in found})} lines")
        for name, line, what in found:
            print(f"  {name.replace('crates/', '', 1)}:{line}  {what}")

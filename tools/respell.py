#!/usr/bin/env python3
"""Respells this repository's own names in specs/, proofs/, clauses and must-fail edits. Run once, at the top, right after the kit's
port.py and before goal_names.py. Prints each pair, and each new name that two old names would share.

- A word is in snake case; a fact (a record, a type) in camel case.
- In a lemma's name a dash joins two names (`lies-set`: what `lies` says of `set`), and a fact to what is said of it (`Kept-run`); any
  other word is joined by `_`. A name is a definition, a function of src/, or a word of std that is listed here.
- Local names, as those of a `where` or a parameter, are in snake case.

Names of Rattle code (functions, fields, parameters of src/), of std, and those that Rattle makes (goals, fields of a proof's `c`) stay."""
import collections
import pathlib
import re
import subprocess
import sys

TOKEN = re.compile(r"[^\s(){}\[\].;,:=λ\\×→⊎|⌜⌝«»\"`]+")
WORD = re.compile(r"^[A-Za-z][A-Za-z0-9'_-]*$")
DECLARED = re.compile(
    r"^(?P<space> *)(?P<mark>(?:pub |abbrev |unfoldable )*)(?P<kind>data |record )?(?:pub )?(?P<name>[^\s(){}\[\].;,:=]+)"
    r"(?P<args>(?: [({][^(){}]*(?:\([^()]*\)[^(){}]*)*[)}])*) : (?P<type>.*)$")
MADE = re.compile(r"^(?:returns|loop|invariant-loop|decreases-loop|invariant-of|overflow|bounds|in|then|else|left)-|invariant-loop$|.*-requires$")
# words of std that lemmas are about
STD_WORDS = set("length set take drop map append push filter replicate insert vec_len get_or flat_map lines".split())

# plain words that are also the name of something: no dash before or behind them
PLAIN = set("one two three from time at out room open fit lanes least bound first second no in none some all more same".split())
# facts that also stand behind a name in a lemma's name
BEHIND = {"alike", "steady", "entering", "mirrored", "placed"}
# the kit's port.py has these in snake case already, since a library had a name of the same spelling
PORTED = """
    after-more all-among all-in all-more apart-bare apart-by asked-here asked-in at-first at-most-two at-rest both-left
    chain-same chained-same chosen-none count-no count-yes counted-none cut-at did-before ended-some first-alike first-holds
    first-out first-runs fit-free from-start going-on held-out in-is in-lane in-left in-rest is-none is-some item-back
    items-back joined-end joined-step kept-run kept-send lane-low lane-of least-skip length-three lent-back lent-out lies-
    alike line-joins lines-more live-out map-same named-set named-some none-done none-lent none-of none-out not-done not-
    live not-new numbered-more once-more other-item put-other put-same quiet-told refused-post room-for row-written run-more
    same-key same-some second-holds second-runs settles-end stands-one start-under step-fits step-waits then-some three-back
    value-of went-call word-some writes-more
""".split()

# what the rule does not give: a definition beside a function of its name, a tactic's name, a word that is gone, a plainer word
CHOSEN = {
    "first_of": "first_refusal", "noWorker": "worker_row", "inUse": "is_in_use", "flawOf": "first_flaw", "freshProcesses": "initial_processes",
    "is-done": "is_done_lem", "is-pair": "is_pair_lem", "is-pending": "is_pending_lem", "is-transit": "is_transit_lem",
    "figure-on": "figure_on_lem", "dealt-length": "length-dealt", "queued-length": "length-queued",
    "queuedAll-length": "length-queued_all", "cleared-length": "length-cleared", "run-append": "Run-append", "run-push": "Run-push",
    "run-split": "Run-split", "calls-append": "calls_among-append", "joined_step": "flat_map-drop_step", "joined_end": "flat_map-drop_end",
    "joined-append": "flat_map-append", "getD-set-keeps": "get_or-set_keeps", "getD-replicate-default": "get_or-replicate_default",
    "earlier-ranks": "IsStrictWeakOrder-earlier", "later-ranks": "IsStrictWeakOrder-later", "stands-d": "stands_d",
    "post-no-process": "refusal-post_no_process", "post-before": "refusal-post_before", "post-past": "refusal-post_past",
    "post-capped": "refusal-post_capped", "post-short": "refusal-post_short", "post-fits": "refusal-post_fits",
    "round-open": "refusal-round_open", "round-fits": "refusal-round_fits", "report-no-worker": "refusal-report_no_worker",
    "report-no-round": "refusal-report_no_round", "report-reported": "refusal-report_reported", "report-fits": "refusal-report_fits",
    "absorb-no-worker": "refusal-absorb_no_worker", "absorb-empty": "refusal-absorb_empty", "absorb-fits": "refusal-absorb_fits",
    "step-no-worker": "refusal-step_no_worker", "step-short": "refusal-step_short", "step-idle": "refusal-step_idle",
    "step-fits": "refusal-step_fits",
}
# files of specs/ that hold lemmas
LEMMAS = ("Laws.antt", "Stocking.antt")


def files(*globs):
    said = subprocess.run(["git", "ls-files", "--cached", "--others", "--exclude-standard", *globs], capture_output=True, text=True, check=True)
    return [p for p in map(pathlib.Path, said.stdout.split("\n")) if p.name and p.is_file()]


def snake(name):
    name = re.sub(r"([a-z0-9])([A-Z]+)", lambda m: m.group(1) + "_" + m.group(2).lower(), name)
    return name.replace("-", "_")


def fact(name):
    return "".join(w[:1].upper() + (w[1:].lower() if w.isupper() else w[1:]) for w in name.split("-"))


def is_of_function(path):
    return path.suffix == ".antt" and "proofs" in path.parts and path.parent.name != "proofs"


def survey():
    """Every own name by its kind; the names of std and of src/ that stay."""
    kinds, std, code = {}, set(), set()
    for path in files("crates/*.rt"):
        text = path.read_text()
        code.update(re.findall(r"\bfn ([a-z][A-Za-z0-9_]*)", text))
        code.update(re.findall(r"^    (?:pub )?([a-z][a-z0-9_]*): ", text, re.M))
    for path in files("crates/*.antt", "crates/*.rt"):
        for line in path.read_text().split("\n"):
            if re.match(r"\s*(pub )?(ghost )?use ", line) and re.search(r"Rattle\.std|native\.|Rattle\.logic", line):
                std.update(re.findall(r"[^\s(){}\[\].;,:=]+", re.sub(r"[^\s{},]+ as ", "", line)))
    for path in files("crates/*.antt"):
        modules, record = [], None  # how far the open modules and the open record are indented
        for line in path.read_text().split("\n"):
            depth = len(line) - len(line.lstrip(" "))
            if not line.strip() or line.lstrip().startswith("--"):
                continue
            modules = [m for m in modules if m < depth]
            record = record if record is not None and record < depth else None
            if re.match(r" *(pub )?module ", line):
                modules.append(depth)
            match = DECLARED.match(line)
            if match and WORD.match(match["name"]) and not match["type"].startswith("goal."):
                defines = "specs" in path.parts and path.name not in LEMMAS or "abbrev" in match["mark"]
                outer = depth == 0 or modules and modules[-1] == depth - 2
                if match["kind"]:
                    kind = "fact"
                elif record is not None:
                    kind = "field of specs" if defines else "field"
                else:
                    kind = "local" if not outer else "word" if defines else "lemma"
                if kinds.get(match["name"]) in (None, "local"):
                    kinds[match["name"]] = kind
            if re.match(r" *(pub )*record .* where$", line):
                record = depth
    return kinds, std, code


def lemma(name, words, facts):
    """A lemma's name by its parts: longest names first, a dash between two of them and behind a fact."""
    parts, out, i = name.split("-"), [], 0
    if len(parts) == 1:
        return snake(name)
    while i < len(parts):
        for j in range(len(parts), i, -1):
            joined = "_".join(snake(p) for p in parts[i:j])
            if joined not in PLAIN and (joined in words or joined in facts and (i == 0 or joined in BEHIND)):
                out.append((joined, True))
                break
        else:
            j, joined = i + 1, snake(parts[i])
            out.append((joined, False))
        i = j
    spelled = [(facts[part], named) if named and part not in words else (part, named) for part, named in out]
    if len(spelled) == 1:
        return snake(name)
    text = spelled[0][0]
    for (before, known), (part, named) in zip(spelled, spelled[1:]):
        text += ("-" if known and named or before[0].isupper() else "_") + part
    return text


def pairs():
    kinds, std, code = survey()
    facts = {snake(fact(n)).lower(): fact(n) for n, k in kinds.items() if k in ("fact", "word") and n[0].isupper()}
    words = {snake(n) for n, k in kinds.items() if k in ("word", "field of specs") and n[0].islower()} | code | STD_WORDS
    for path in files("crates/*.antt"):
        for line in path.read_text().split("\n"):
            for match in TOKEN.finditer(re.sub(r"(^|\s)--.*", "", line)):
                name = match[0]
                if not WORD.match(name) or name in std or name in kinds or not re.search(r"-|[a-z][A-Z]", name) or MADE.match(name):
                    continue
                if is_of_function(path) and line[: match.start()].endswith("."):
                    continue
                kinds[name] = "local"
    mapping = {}
    for name, kind in kinds.items():
        if name in CHOSEN:
            new = CHOSEN[name]
        elif name[0].isupper():
            new = fact(name) if "-" in name else name
        elif kind == "lemma":
            new = lemma(name, words, facts)
        else:
            new = snake(name)
        if new != name and name not in std:
            mapping[name] = (new, kind)
    for name in PORTED:
        new, old = CHOSEN.get(name, lemma(name, words, facts)), snake(name)
        if new != old and old not in std and old not in code and kinds.get(old) == "lemma":
            mapping[old] = (new, "lemma")
    return mapping, kinds, std, code


def turn(path, mapping, code):
    """The text of a file in the new spelling. What stands behind a dot in a function's proof is a name of Rattle's, but for fields."""
    of_function, out = is_of_function(path), []
    for line in path.read_text().split("\n"):
        imports = re.match(r"\s*(pub )?(ghost )?use ", line)

        def word(match):
            name = match[0]
            if name not in mapping or path.suffix == ".rt" and (name in code or "Prim." in line):
                return name
            new, kind = mapping[name]
            if of_function and not imports and line[: match.start()].endswith(".") and not kind.startswith("field"):
                return name
            return new

        out.append(TOKEN.sub(word, line))
    return "\n".join(out)


def main():
    mapping, kinds, std, code = pairs()
    taken = collections.defaultdict(set)
    for old, (new, _) in mapping.items():
        taken[new].add(old)
    for new, olds in sorted(taken.items()):
        if len(olds) > 1 or new in std or new in kinds and new not in mapping:
            print("shared:", new, sorted(olds), "own" if new in kinds else "", "std" if new in std else "", "code" if new in code else "")
    for old, (new, kind) in sorted(mapping.items()):
        print(f"{kind}: {old} -> {new}")
    if "--dry" in sys.argv:
        return
    for path in files("crates/*.antt", "crates/*.rt", "crates/*.edit"):
        text = turn(path, mapping, code)
        if text != path.read_text():
            path.write_text(text)


main()

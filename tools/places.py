#!/usr/bin/env python3
"""Counts the places of docs/DESIGN-PASS.md in crates/*/src, crates/*/proofs: `tools/places.py [-v] [COMMIT]` (without one, the files as they stand)."""
import collections
import re
import subprocess
import sys

VERBOSE = "-v" in sys.argv
ARGS = [a for a in sys.argv[1:] if a != "-v"]
COMMIT = ARGS[0] if ARGS else None


def git(*words):
    return subprocess.run(["git", *words], capture_output=True, text=True, check=True).stdout


def files(pattern):
    if COMMIT:
        return [f for f in git("ls-tree", "-r", "--name-only", COMMIT, "crates").split("\n") if re.fullmatch(pattern, f)]
    return [f for f in git("ls-files", "--cached", "--others", "--exclude-standard", "crates").split("\n") if re.fullmatch(pattern, f)]


def text(path):
    return git("show", f"{COMMIT}:{path}") if COMMIT else open(path).read()


SOURCES = {}
for path in files(r"crates/\w+/src/.*\.rt"):
    try:
        SOURCES[path] = text(path)
    except FileNotFoundError:
        pass


def functions(source):
    """Each function's name, head (parameters and contract) and body: it ends with the line that closes at its own indentation."""
    found, lines, n = [], source.split("\n"), 0
    while n < len(lines):
        head = re.match(r'^([ \t]*)(?:pub(?:\(crate\))? )?(?:extern "C" )?fn (\w+)', lines[n])
        if not head:
            n += 1
            continue
        indent, name = head.groups()
        end = n
        while end < len(lines) and lines[end] != indent + "}":
            end += 1
        whole = lines[n : end + 1]
        split = next((k for k, l in enumerate(whole) if l == indent + "{"), None)
        if split is None:
            split = next((k for k, l in enumerate(whole) if l.endswith("{")), 0)
        found.append((name, "\n".join(whole[: split + 1]), "\n".join(whole[split + 1 : -1])))
        n = end + 1
    return found


def show(point, what, places):
    print(f"{point}  {len(places):4}  {what}")
    if VERBOSE:
        for place in places:
            print(f"           {place}")


def grep(pattern):
    found = []
    for path, source in SOURCES.items():
        for n, line in enumerate(source.split("\n"), 1):
            if not line.strip().startswith("//") and re.search(pattern, line):
                found.append(f"{path}:{n}: {line.strip()}")
    return found


ALL = [(path, *f) for path, source in SOURCES.items() for f in functions(source)]

# 1
enums = []
for path, source in SOURCES.items():
    for m in re.finditer(r"^(?:pub )?enum (\w+)(?:<.*?>)? \{\n(.*?)^\}", source, re.M | re.S):
        if re.search(r"\(Refusal(At)?\)", m.group(2)):
            enums.append(f"{path}: {m.group(1)}")
show("1a", "own enums with a case that holds a refusal", enums)
show("1b", "answers of own enums taken apart by let .. else", grep(r"let [A-Z]\w*::\w+(\(.*\))? = .* else"))
show("1c", "functions that take the refusal out of an answer", [f"{p}: {n}" for p, n, h, b in ALL if n.endswith("_refusal") and not n.startswith("print")])
show("1d", "structs with an answer beside a value", grep(r"^\s*(pub )?answer: "))
sentinels = []
for path, source in SOURCES.items():
    for n, line in enumerate(source.split("\n"), 1):
        if re.match(r"^// .*(; `?\w+`? if (none|it is not|there is none|it has none|it is absent)|[;,] 0 (for|where|of|if) |behind (its|the) end 0|; 0 behind|if it is absent)", line):
            sentinels.append(f"{path}:{n}: {line}")
show("1e", "functions that say by a number that there is nothing (by their comments)", sentinels)
show("1f", "tests of a number that stands for a kind", grep(r"if what == \d|if kind == [A-Z]|match r\[0\]"))
# 2
shapes = collections.defaultdict(list)
for path, name, head, body in ALL:
    if len(body.split("\n")) < 2:
        continue
    words, shape = {}, []
    for token in re.findall(r"b?\"[^\"]*\"|b'.'|[A-Za-z_]\w*|0x[0-9A-F]+|\d\w*|\S", re.sub(r"//.*", "", body)):
        if re.match(r"[A-Za-z_0-9b]", token) and token not in ("let", "mut", "if", "else", "for", "in", "while", "return", "match", "as", "true", "false"):
            token = words.setdefault(token, f"w{len(words)}")
        shape.append(token)
    shapes[" ".join(shape)].append(f"{path}: {name}")
twins = [", ".join(v) for v in shapes.values() if len(v) > 1]
show("2a", "groups of functions of one shape (names, numbers and types apart)", twins)
names = collections.defaultdict(set)
for path, name, head, body in ALL:
    if name != "main" and "impl" not in name:
        names[name].add(path.split("/")[1])
show("2b", "private functions of one name in several crates", [f"{k}: {', '.join(sorted(v))}" for k, v in sorted(names.items()) if len(v) > 1])
# 3
show("3a", "while loops", grep(r"\bwhile "))
show("3b", "for loops over an index range", grep(r"\bfor \w+ in .*\.\."))
# 4
show("4a", "conversions by `as` to a wider type or a narrower one", grep(r" as (u64|usize|u8|u16|u32)\b"))
show("4b", "functions that convert, compare or join octets by hand", [f"{p}: {n}" for p, n, h, b in ALL if n in ("wide", "one_if", "both", "either", "least", "larger", "high", "low", "pair", "pair_at", "octet_at", "is_same_key", "is_same_content", "is_free", "copy_front", "put_octets", "put_four", "put_word", "read_word", "read_numbers", "wide_numbers", "put_content", "place_octets", "clear_place", "clear_store", "record_at", "count_letters", "digest", "store", "is_in")])
show("4c", "lines that print a piece of text or a number", grep(r"stdio::(write_all|print_decimal|print_hex)|^\s*print(_number)?\(rt, "))
# 5
facts = collections.defaultdict(list)
for path, name, head, body in ALL:
    crate = path.split("/")[1]
    for clause in re.findall(r"requires (?:\w+ )?\{(.*?)\}\n", head + "\n", re.S):
        depth, part, parts = 0, "", []
        for ch in clause:
            depth += ch in "([{"
            depth -= ch in ")]}"
            if ch == "×" and depth == 0:
                parts.append(part)
                part = ""
            else:
                part += ch
        parts.append(part)
        for fact in {re.sub(r"\s+", " ", p).strip().removeprefix("(").removesuffix(")") for p in parts}:
            facts[(crate, fact)].append(name)
show("5a", "facts that stand in the requires of three functions of a crate or more", [f"{c}: {f} ({len(v)})" for (c, f), v in sorted(facts.items()) if len(v) > 2])
pairs = collections.defaultdict(list)
for path, name, head, body in ALL:
    crate = path.split("/")[1]
    signature = re.sub(r"\s+", " ", head.split("requires")[0].split("ensures")[0])
    inside = re.search(r"\((.*)\)", signature)
    params = re.findall(r"(\w+): ([^,()]+(?:\[[^\]]*\])?)", inside.group(1)) if inside else []
    params = [f"{n}: {t.strip()}" for n, t in params if n not in ("rt",)]
    for i in range(len(params)):
        for j in range(i + 1, len(params)):
            pairs[(crate, params[i], params[j])].append(name)
together = [f"{c}: {a}, {b} ({len(v)})" for (c, a, b), v in sorted(pairs.items()) if len(v) > 2]
show("5b", "pairs of parameters that three functions of a crate or more take", together)
# 6
show("6a", "tables, texts and rows in arrays with a count beside them", grep(r"^\s*(pub )?(count|length|end|systems): usize|let n = .*(gather|spell|read_full|count_letters)\("))
# 7
show("7a", "own enums that choose a step", [e for e in grep(r"^(pub )?enum Part\b")])
# 8
answers = {f: text(f) for f in files(r"crates/\w+/proofs/.*Answers\.antt")}
goals = sum(len(re.findall(r"^pub [\w.\-]+ : goal\.", s, re.M)) for s in answers.values())
lines = sum(len(text(f).split("\n")) for f in files(r"crates/\w+/proofs/.*\.antt"))
print(f"8a  {goals:4}  goals answered in proofs/, {len(answers)} functions with answers, {lines} lines of proofs")
alone = [f"{f}: {m}" for f, s in answers.items() for m in re.findall(r"^pub ([\w.\-]+) : goal\.[^\n]*\n(?:unfolding [^\n]*\n)?[\w.\-]+ \w+ =\s+search rules$", s, re.M)]
show("8b", "answers that say `search rules` alone", alone)
show("8c", "answers that cite a name of Rattle's own", [f"{f}: {m}" for f, s in answers.items() for m in re.findall(r"slice_known-\d|After-\w+-\d-\d", s)])

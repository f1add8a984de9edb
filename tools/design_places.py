#!/usr/bin/env python3
"""Counts, for each point of docs/DESIGN-PASS.md, the places of crates/*/src that a reader has to look at.

design_places.py [COMMIT] [--list]: the sources of a commit, or those of the work tree; --list prints each place."""
import collections
import glob
import re
import subprocess
import sys

LIST = "--list" in sys.argv
COMMIT = next((word for word in sys.argv[1:] if word != "--list"), "")


def read():
    """Each source file of the crates, without comments: its short name and its text."""
    if not COMMIT:
        return {path[7:]: open(path, encoding="utf-8").read() for path in sorted(glob.glob("crates/*/src/*.rt"))}
    run = lambda *words: subprocess.run(words, check=True, capture_output=True, text=True).stdout
    names = [n for n in run("git", "ls-tree", "-r", "--name-only", COMMIT, "crates").split() if re.fullmatch(r"crates/\w+/src/\w+\.rt", n)]
    return {name[7:]: run("git", "show", f"{COMMIT}:{name}") for name in names}


RAW = read()
FILES = {name: re.sub(r"//[^\n]*", "", text) for name, text in RAW.items()}


def block(text, at):
    """The text from an opening brace to the one that closes it."""
    depth = 0
    for end in range(at, len(text)):
        depth += {"{": 1, "}": -1}.get(text[end], 0)
        if depth == 0:
            return text[at:end + 1]
    return text[at:]


def functions():
    """Each function: file, name, parameters, result and body."""
    for name, text in FILES.items():
        for at in re.finditer(r"\bfn (\w+)(?:<[^>]*>)?\(", text):
            depth, end = 1, at.end()
            while depth:
                depth += {"(": 1, ")": -1}.get(text[end], 0)
                end += 1
            rest = text[end:]
            result = re.match(r"\s*->\s*([^\n{]+)", rest)
            body = re.search(r"^\s*\{\s*$|^[^\n]*\{\s*$", rest, re.M)
            if body:
                start = end + body.end() - 1
                start = text.rindex("{", 0, start + 1)
                yield name, at[1], text[at.end():end - 1], (result[1].strip() if result else ""), block(text, start)


ALL = list(functions())
found = collections.OrderedDict()


def add(point, place):
    found.setdefault(point, []).append(place)


def plain(body):
    """A body with its names, types and numbers made alike, by the order in which they come."""
    seen = {}
    words = re.findall(r"[A-Za-z_]\w*|\d[\w.]*|\S", body)
    kept = {"let", "mut", "while", "for", "in", "if", "else", "return", "match", "as", "true", "false", "Some", "None", "Ok", "Err"}
    return " ".join(w if w in kept or not re.match(r"\w", w) else seen.setdefault(w, f"#{len(seen)}") for w in words)


# 1
for name, text in FILES.items():
    for at in re.finditer(r"\benum (\w+)[^{]*", text):
        if re.search(r"\w\(", block(text, at.end())):
            add("1 own enum with a variant that carries something", f"{name}:{at[1]}")
for name, fn, args, result, body in ALL:
    if result == "Answer":
        add("1 function that returns an Answer, DONE among them", f"{name}:{fn}")
    for flag in re.findall(r"\bgiven: bool", args):
        add("1 flag beside the slice that it tells of (`given: bool`)", f"{name}:{fn}")
    if re.search(r"\bFAULT\b|=> 16\b|== 16\b", body):
        add("1 number that stands for none (FAULT, digit 16)", f"{name}:{fn}")
for name, text in RAW.items():
    for at in re.finditer(r"Answers whether a path count was above the limit[^\n]*\n(?:pub )?fn (\w+)|Answers whether a path count[^\n]*", text):
        add("1 bool that says a call failed (\"Answers whether a path count\")", f"{name}:{at[1] or text[:at.start()].count(chr(10)) + 1}")
# 2
alike = collections.defaultdict(list)
for name, fn, args, result, body in ALL:
    if len(body) > 60 and not re.search(r"^meadowrut", name):
        alike[plain(body)].append(f"{name}:{fn}")
for group in alike.values():
    if len(group) > 1:
        add("2 functions with one body but for names, types and numbers (groups)", " = ".join(group))
# 3
for name, fn, args, result, body in ALL:
    for at in re.finditer(r"\bwhile ([^{]+)\{", body):
        names = set(re.findall(r"[a-z_]\w*", at[1]))
        steps = set(re.findall(r"\b(\w+) [+-]= 1;", block(body, at.end() - 1)))
        kind = "3 while that counts by one" if names & steps else "3 other while"
        add(kind, f"{name}:{fn}: while {at[1].strip()}")
    for at in re.finditer(r"\bfor [^{]+ in ", body):
        add("3 (for loops)", f"{name}:{fn}")
    for at in re.finditer(r"\.(iter|iter_mut|zip|enumerate|rev|any|all|position|fold|sum|map|fill|copy_from_slice|starts_with|ends_with|chunks\w*)\(", body):
        add("3 (iterator chains and slices' own methods: calls)", f"{name}:{fn}: {at[1]}")
# 4
HAND = r"number|plain_number|ended_number|elected_number|as_number|wide|widened|narrow|higher|least|any_fault|any_found|grown|too_many|enters|settings_of|report_of|election_of|text_of|name|named|measure_of|refuses|print_name|print_later_name|same"
for name, fn, args, result, body in ALL:
    if re.fullmatch(HAND, fn):
        add("4 conversion, comparison or name by hand (by function name)", f"{name}:{fn}")
# 5
GROUPS = {"from, to": ("from: &", "to: &"), "distances, queue": ("distances: usize", "queue: usize"), "first, last": ("first: usize", "last: usize"),
          "w32, w64, wf": ("w32: &", "w64: &", "wf: &"), "a, b, c": ("a: usize", "b: usize", "c: usize"), "own, lengths of a record": ("own: usize", "lengths: usize")}
for name, fn, args, result, body in ALL:
    for group, words in GROUPS.items():
        if all(re.search(rf"(?<!\w){re.escape(word)}", args) for word in words):
            add(f"5 parameters that travel together: {group}", f"{name}:{fn}")
# 6
for name, text in FILES.items():
    for at in re.finditer(r"\blong: usize", text):
        add("6 buffer with a length beside it (`long`)", name)
    for at in re.finditer(r"= \[[^;\]]+; [^\]]+\];", text):
        add("6 (fixed arrays)", f"{name}: {at[0]}")
# 7
for name, fn, args, result, body in ALL:
    if re.search(r"\bmatch (?:words::word\(words, 0, 0\)|measure|call)\s*\{", body) and body.count("=>") > 2:
        add("7 match on which call to make or name to print", f"{name}:{fn}")

for point, places in found.items():
    print(f"{len(places):4} {point}")
    if LIST:
        for place in places:
            print(f"         {place}")

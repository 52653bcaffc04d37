#!/usr/bin/env python3
"""Lists the places in crates/*/src and crates/*/proofs that docs/DESIGN-PASS.md counts, point by point. Run it at the top of the repository.

    python3 tools/places.py        how many places each point has
    python3 tools/places.py 3      the places of one point, one to a line
"""
import glob
import re
import sys


def read(path):
    with open(path, encoding="utf-8") as it:
        return it.read()


def without_comments(text):
    return re.sub(r"^\s*//.*$", "", text, flags=re.M)


SOURCES = {path: without_comments(read(path)) for path in sorted(glob.glob("crates/*/src/**/*.rt", recursive=True))}
HEAD = re.compile(r"^( *)(?:pub(?:\(crate\))? )?fn (\w+)", re.M)


def functions():
    """Yields each function: its file, name, parameters, clauses and body."""
    for path, text in SOURCES.items():
        for head in HEAD.finditer(text):
            end = text.find("\n" + head[1] + "}", head.end())
            # With clauses the body opens on a line of its own, else at the end of the signature's.
            start = text.find("\n" + head[1] + "{\n", head.end(), end)
            start = start if start >= 0 else text.find("{\n", head.end(), end)
            clauses = text[head.end() : start]
            opens = clauses.find("(")
            yield path, head[2], clauses[opens : balanced(clauses, opens)], clauses, text[start:end]


def balanced(text, at):
    depth = 0
    for i in range(at, len(text)):
        depth += (text[i] in "([{") - (text[i] in ")]}")
        if depth == 0:
            return i + 1
    return len(text)


def parameters(params):
    return re.findall(r"(\w+): ([^,()]*(?:\[[^\]]*\])?[^,()]*)", params)


def shapes_of_option_and_result():
    """Enums with a variant for a refusal, a failure or nothing; structs with a flag beside a value; a number that stands for a failure."""
    for path, text in SOURCES.items():
        for it in re.finditer(r"enum (\w+) \{(.*?)\n\}", text, re.S):
            if re.search(r"^\s+(Refused|None|Nothing|Failed|Uncut)\b", it[2], re.M):
                yield f"{path}: enum {it[1]}"
        for it in re.finditer(r"struct (\w+) \{(.*?)\n\}", text, re.S):
            if re.search(r"\b(whole|found|ok|valid): bool", it[2]):
                yield f"{path}: struct {it[1]}"
            if re.search(r"\b(flag|kind|code): u\w+", it[2]):
                yield f"{path}: struct {it[1]} (a number for a kind)"
        for it in re.finditer(r"fn (\w+)[^{]*?-> (isize|Result<\w+, u\d+>)", text):
            yield f"{path}: fn {it[1]} -> {it[2]}"
    for path, name, params, _, _ in functions():
        if re.search(r"\b(flags|closings): &(mut )?\[usize\]", params):
            yield f"{path}: fn {name} (numbers for flags)"


def shape(body):
    """A body with its names, types and constants left out, so that twins have the same one."""
    words = re.findall(r"b?\"[^\"]*\"|\w+|[^\s\w]", body)
    kept = {"if", "else", "while", "for", "in", "let", "mut", "return", "match", "loop"}
    return " ".join(it if it in kept or not re.match(r"\w", it) else "#" if it[0].isdigit() or it[0].isupper() else "x" for it in words)


def twins():
    """Functions of three lines or more whose bodies differ in names, types and constants alone."""
    found = {}
    for path, name, _, _, body in functions():
        if body.count("\n") >= 3:
            found.setdefault(shape(body), []).append(f"{path}: fn {name}")
    for group in found.values():
        if len(group) > 1:
            yield " | ".join(group)


def index_loops():
    """A `while` whose body counts a variable of its test up or down by one."""
    for path, _, _, _, body in functions():
        for it in re.finditer(r"^( *)while ([^\n]*) \{\n(.*?)\n\1\}", body, re.M | re.S):
            counted = set(re.findall(r"(\w+) [+-]= 1;", it[3])) & set(re.findall(r"\w+", it[2]))
            if counted:
                yield f"{path}: while {it[2]}"


def copied_by_hand():
    """Conversions by `as` and by functions of one test, and struct literals that copy three fields or more of another value."""
    for path, text in SOURCES.items():
        for it in re.finditer(r"[^\n]*\bas (?:u8|u32|u64|usize|isize)\b[^\n]*", text):
            yield f"{path}: {it[0].strip()}"
    for path, name, params, clauses, body in functions():
        if re.search(r"-> (u8|u32|u64|usize|Counts)\b", clauses) and re.search(r"\{\s*if \w+( == 0)? \{ [01] \} else \{ [01] \}$|\{\s*match \w+ \{\s*\S+ => \d", body):
            yield f"{path}: fn {name}"
        copies = max((len(re.findall(r"\b(\w+): (\w+)\.\1\b", it)) for it in re.findall(r"\w+ \{[^{}]*\}", body)), default=0)
        if copies >= 3:
            yield f"{path}: fn {name} (copies {copies} fields)"


def facts_again():
    """Facts that three contracts or more ask for, and three parameters or more that travel through three functions or more of a file."""
    facts = {}
    groups = {}
    for path, name, params, clauses, _ in functions():
        for it in re.finditer(r"requires[^{]*\{", clauses):
            clause = clauses[it.end() : balanced(clauses, it.end() - 1) - 1]
            for fact in re.split(r" × ", re.sub(r"\s+", " ", clause).strip()):
                fact = re.sub(r"\.(now|old)\b", "", fact).strip()
                fact = fact[1:-1] if fact.startswith("(") and balanced(fact, 0) == len(fact) else fact
                facts.setdefault(fact, []).append(f"{path}: fn {name}")
        group = [f"{it[0]}: {it[1].strip()}" for it in parameters(params)]
        for i in range(len(group) - 2):
            groups.setdefault((path, tuple(group[i : i + 3])), []).append(name)
    for fact, where in facts.items():
        if len(where) >= 3:
            yield f"{fact}  ({len(where)} contracts)"
    for (path, group), where in groups.items():
        if len(where) >= 3:
            yield f"{path}: {', '.join(group)}  ({len(where)} functions)"


def lengths_beside():
    """A list and the parameter that says how much of it is in use."""
    for path, name, params, clauses, _ in functions():
        known = parameters(params)
        for lists in known:
            if not re.search(r"\[(f64|u8|u32|usize|T|bool)\]", lists[1]):
                continue
            for count in known:
                if count[1].strip() == "usize" and re.search(rf"\b{count[0]} ≤ length {lists[0]}\b|length {lists[0]}\.\w+ ≡ 3 \* {count[0]}\b|3 \* {count[0]} ≤ length {lists[0]}\b", clauses):
                    yield f"{path}: fn {name} ({lists[0]}, {count[0]})"


def switches():
    """A flag that says which step to run, handed through functions."""
    for path, name, params, _, _ in functions():
        for it in re.findall(r"\b(write|within): bool", params):
            yield f"{path}: fn {name} ({it})"


def long_proofs():
    """Lines over 160 columns, imports that nothing uses, and answers that say only `search`, in proof files."""
    for path in sorted(glob.glob("crates/*/proofs/**/*.antt", recursive=True) + glob.glob("crates/*/specs/**/*.antt", recursive=True)):
        text = read(path)
        lines = text.split("\n")
        if any(len(it) > 160 for it in lines):
            yield f"{path}: {sum(len(it) > 160 for it in lines)} long lines"
        body = "\n".join(it for it in lines if not it.startswith(("use ", "--")))
        for it in lines:
            named = re.match(r"use [^{]*\.\{([^}]*)\}$", it)
            for word in named[1].split(", ") if named else []:
                bare = word.replace("◌", "").strip()
                if bare and bare not in body:
                    yield f"{path}: unused {word}"
        for it in re.findall(r"^([\w:-]+) c = search rules$", text, re.M):
            yield f"{path}: {it} = search rules"


POINTS = [shapes_of_option_and_result, twins, index_loops, copied_by_hand, facts_again, lengths_beside, switches, long_proofs]

if __name__ == "__main__":
    if len(sys.argv) > 1:
        for line in POINTS[int(sys.argv[1]) - 1]():
            print(line)
    else:
        for number, point in enumerate(POINTS, 1):
            print(number, len(list(point())), point.__doc__.split("\n")[0])

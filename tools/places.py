#!/usr/bin/env python3
"""Counts, by its text, where the code of src/ has a form that today's Rattle has a better one for.

usage: tools/places.py [COMMIT]     of the files as they lie here, or of a commit; run at the top

It prints a line for each place, under the number of its point, and the counts at the end. It goes by
text alone: a place is somewhere to look, and no verdict.
"""
import itertools
import re
import subprocess
import sys
from collections import defaultdict

WORDS = set(
    "as break const continue crate else enum fn for ghost if impl in let loop match mod move mut pub ref return self Self "
    "static struct super trait true type unsafe use where while requires ensures Some None Ok Err Option Result Vec bool "
    "u8 u16 u32 u64 usize i32 false".split()
)


def sources(commit):
    """The text of each file of src/, by its path."""
    if commit:
        names = subprocess.run(["git", "ls-tree", "-r", "--name-only", commit], capture_output=True, text=True, check=True).stdout.split()
        read = lambda n: subprocess.run(["git", "show", f"{commit}:{n}"], capture_output=True, text=True, check=True).stdout
    else:
        names = subprocess.run(["git", "ls-files"], capture_output=True, text=True, check=True).stdout.split()
        read = lambda n: open(n, encoding="utf-8").read()
    return {n: read(n) for n in sorted(names) if re.fullmatch(r"crates/[a-z_]+/src/.*\.rt", n)}


def closing(text, at):
    """The place behind the brace that closes the one at `at`."""
    depth = 0
    for i in range(at, len(text)):
        depth += {"{": 1, "}": -1}.get(text[i], 0)
        if depth == 0:
            return i + 1
    return len(text)


def functions(text):
    """Each function's name, head, clauses and body."""
    for m in re.finditer(r"^( *)((?:pub(?:\([a-z]+\))? )?(?:final )?fn (\w+))", text, re.M):
        indent, name = m.group(1), m.group(3)
        end = re.compile(rf"(?:^|\n){indent}\{{\n|\{{\}}|\{{\n|;\n").search(text, m.end())
        at, clauses, head = m.end(), [], None
        while True:
            c = re.compile(r"(requires|ensures)\*?\s*(\w+)?\s*\{").search(text, at)
            b = re.compile(r"\{|;").search(text, at)
            if c and b and c.start() < b.start():
                head = head if head is not None else text[m.start() : c.start()]
                stop = closing(text, c.end() - 1)
                clauses.append((c.group(1), c.group(2), " ".join(text[c.end() : stop - 1].split())))
                at = stop
                continue
            break
        head = head if head is not None else text[m.start() : b.start() if b else m.end()]
        body = text[b.start() : closing(text, b.start())] if b and text[b.start()] == "{" else ""
        yield name, head, clauses, body, text.count("\n", 0, m.start()) + 1


def shape(code):
    """The code with each name and each number told only by where it first came."""
    code = re.sub(r"//[^\n]*", "", code)
    seen, out = {}, []
    for word in re.findall(r"[A-Za-z_]\w*|\d[\w.]*|\S", code):
        if re.match(r"\d", word):
            out.append("0")
        elif re.match(r"u(8|16|32|64)$", word):
            out.append("uN")
        elif re.match(r"[A-Za-z_]", word) and word not in WORDS:
            out.append(f"n{seen.setdefault(word, len(seen))}")
        else:
            out.append(word)
    return tuple(out)


def main():
    found = defaultdict(list)
    texts = sources(sys.argv[1] if len(sys.argv) > 1 else None)
    shapes, facts, groups = defaultdict(list), defaultdict(set), defaultdict(set)
    for path, text in texts.items():
        for n, line in enumerate(text.split("\n"), 1):
            here = f"{path}:{n}: {line.strip()}"
            if re.match(r"\s*(pub(\([a-z]+\))? )?enum ", line):
                found["1 an enum of its own"].append(here)
            if re.match(r"\s+(pub(\([a-z]+\))? )?\w+: (\[bool; \d+\]|Vec<bool>|bool),", line):
                found["1 a flag as a field"].append(here)
            if re.search(r"\.number\(\) as|fn figure|_code: u8|fn kind_code|fn number\(", line):
                found["1 a number for a kind or a refusal"].append(here)
            if re.match(r"\s*for [a-z]\w* in [^{]*\.\.[^{]*\{", line) or re.match(r"\s*while (?!let)", line):
                found["3 a loop that counts"].append(here)
            if re.search(r"\bfn\(|\bdyn\b|impl Fn", line):
                found["7 a function as a value"].append(here)
        for m in re.finditer(r"else \{\s*return None;\s*\}|Err\(_\) => Err\([\w:]+\),|Err\((\w+)\) => Err\([\w:]+\(\1\)\),", text):
            found["1 a `?` written out"].append(f"{path}:{text.count(chr(10), 0, m.start()) + 1}")
        for m in re.finditer(r"for [^{;]* in [^{;]*\{\s*if [^{;]*\{\s*return[^;]*;\s*\}\s*\}", text):
            found["3 a loop that only searches"].append(f"{path}:{text.count(chr(10), 0, m.start()) + 1}: {' '.join(m.group(0).split())[:100]}")
        for m in re.finditer(r"struct (\w+)[^{;]*\{([^}]*)\}", text):
            fields = re.findall(r"(\w+): (\[[^\]]*\]|&'?\w* ?(?:mut )?\[\w+\]|Vec<[^,]*>|usize|u32)", m.group(2))
            arrays = [f for f, t in fields if t[0] in "[&V"]
            counts = [f for f, t in fields if t in ("usize", "u32") and re.search(r"count|len|end|size|place", f)]
            if (arrays and counts) or len(arrays) > 1:
                found["6 a buffer with a length, or two arrays"].append(f"{path}: {m.group(1)} {arrays + counts}")
        for name, head, clauses, body, line in functions(text):
            at = f"{path}:{line}: {name}"
            if len(shape(body)) > 11 and "true" != body.strip("{} \n"):
                shapes[shape(head.split("fn " + name, 1)[1]) + shape(body)].append(at)
            for kind, _, said in clauses:
                if said not in ("result ≡ true", "⊤"):
                    facts[re.sub(r"\b(result|self)\b\.?(now|old|new|entry)?", "SELF", said)].add(at)
            params = re.findall(r"(\w+): ([^,()]+)", head.split("(", 1)[1] if "(" in head else "")
            for group in itertools.combinations(sorted(set((p, t.strip()) for p, t in params)), 3):
                groups[group].add(at)
            if re.search(r"^(same|other|compare|clone|spelled|is_same)_?\w*$|_bytes$|^sign_byte$|^number$|^of$|^put_decimal$|^tell_|^letters$", name):
                found["4 equality, conversion or printing by hand"].append(at)
            if re.search(r"\w+: bool\b", head):
                found["7 a flag that picks a step"].append(at)
    for same in shapes.values():
        if len(same) > 1:
            found["2 functions of one shape"].append(" ~ ".join(same))
    for said, where in facts.items():
        if len(where) > 2:
            found["5 a fact in three contracts or more"].append(f"{len(where)} times: {said[:160]}")
    for group, where in groups.items():
        if len(where) > 2:
            found["5 three parameters that travel together"].append(f"{len(where)} times: {', '.join(f'{p}: {t}' for p, t in group)}")
    for point in sorted(found):
        print(f"\n{point}")
        for place in found[point]:
            print(f"  {place}")
    print()
    for point in sorted(found):
        print(f"{len(found[point]):4} {point}")


main()

#!/usr/bin/env python3
"""Brings the names of this repository's definitions and lemmas to Rattle's spelling: words in snake case.

usage: python3 tools/respell.py     at the top, once, after the kit's own port

Functions of src/, exported names, strings, inputs and outputs keep their names. A name that comes from a goal
(goal.X) or from a step of the code is made by the kit, and is left alone. Where a lemma and a definition would
fall together, the lemma gets the name of the table APART.
"""

import os
import re
import sys

# (where, old, new): lemmas whose snake case a definition has; `where` is a prefix of the path below crates/
APART = [
    ("batches/proofs/Filing.antt", "has-letters", "file_has_letters"),
    ("batches/proofs/Filing.antt", "counts-fit", "file_counts_fit"),
    ("batches/proofs/Filing.antt", "length-fits", "file_length_fits"),
    ("batches/proofs/Filing.antt", "has-sign", "sign_byte_has_sign"),
    ("batches/proofs/Filing.antt", "contents-of", "contents_of_pieces"),
    ("batches/proofs/Refiling.antt", "line-bytes", "line_bytes_of_piece"),
    ("batches/proofs/Refiling.antt", "row-bytes", "row_bytes_of_piece"),
    ("batches/proofs/Refiling.antt", "rows-bytes", "rows_bytes_of_pieces"),
    ("batches/proofs/Refiling.antt", "head_bytes", "head_bytes_are_back"),
    ("batches/proofs/Opened.antt", "row_count", "row_count_is_told"),
    ("batches/proofs/Rowwise.antt", "row_count", "row_count_is_told"),
    ("batches/proofs/Refiling.antt", "row_count", "row_count_is_told"),
    ("batches/proofs/Opened.antt", "line-count", "line_count_is_told"),
    ("batches/proofs/Rowwise.antt", "line-count", "line_count_is_told"),
    ("batches/proofs/Refiling.antt", "line-count", "line_count_is_told"),
    ("book/proofs/Bookings.antt", "reversed-row", "reversed_row_bookings"),
    ("book/proofs/Paged.antt", "no-postings", "no_postings_is_empty"),
    ("book/proofs/Paged.antt", "no-records", "no_records_is_empty"),
    ("cache/proofs/Holdings.antt", "same-page", "same_page_itself"),
    ("cache/proofs/Holdings.antt", "same-pages", "same_pages_itself"),
    ("plain_book/proofs/LineByLine.antt", "is-accepted", "is_accepted_alone"),
    ("keys/", "zeros-only", "zeros_only_replicate"),
    ("keys/", "by_bytes", "by_bytes_is_total"),
    ("keys/", "by_number", "by_number_is_total"),
    ("keys/", "by-signed", "by_signed_is_total"),
    ("listing/proofs/LeavesSteps.antt", "next-leaf", "next_leaf_on"),
    ("lookups/proofs/", "looked-up", "looked_up_whole"),
    ("sample_tree/proofs/", "nodes-pass", "nodes_pass_fit"),
    ("sample_tree/proofs/", "link_fits", "link_fits_below"),
    ("sample_tree/proofs/", "chain-passes", "chain_passes_fits"),
    ("sample_tree/proofs/", "once-below", "once_below_counts"),
    ("sample_tree/proofs/", "is-posting", "is_posting_number"),
    ("sample_tree/proofs/", "record-sized", "record_is_sized"),
]

# words of one name: letters, digits, primes, and dashes between them
WORD = re.compile(r"(?<![\w'-])[A-Za-z][\w']*(?:-[\w']+)*(?![\w'-])")
SIGNATURE = re.compile(r"^( *)(?:pub |abbrev |unfoldable )*([^\s(){}:=λ.,]+(?: [^\s(){}:=λ.,]+)*) : (.*)$")
BINDER = re.compile(r"[({]([^\s(){}:]+(?: [^\s(){}:]+)*) : ")
LET = re.compile(r"\blet ([^\s(){}:=]+) (?:: |= )")
LAMBDA = re.compile(r"λ ([^.()]+)\.")
CAMEL = re.compile(r"^[a-z][a-z0-9']*[A-Z]")
KEBAB = re.compile(r"[\w']-[\w']")


def is_old(name):
    return bool(CAMEL.match(name) or KEBAB.search(name))


def snake(name):
    name = name.replace("-", "_")
    if name[0].islower():
        name = re.sub(r"([a-z0-9'])([A-Z])", lambda m: m.group(1) + "_" + m.group(2).lower(), name)
    return name


def files(root, *ends):
    for folder, dirs, names in os.walk(root):
        dirs[:] = sorted(d for d in dirs if d not in ("out", ".git", "target"))
        for n in sorted(names):
            if n.endswith(ends):
                yield os.path.join(folder, n)


def code(line, mark):
    """The line without its comment, and the comment."""
    stripped = line.lstrip()
    if stripped.startswith(mark):
        return "", line
    at = line.find(" " + mark + " ")
    return (line, "") if at < 0 else (line[:at], line[at:])


def read(path):
    with open(path, encoding="utf-8") as f:
        return f.read()


def is_goal_file(path):
    return "/proofs/" in path and os.path.basename(path) in ("Answers.antt", "Invariants.antt", "Choices.antt", "Proof.antt")


def own_names(root):
    names, fields, camels = set(), set(), set()
    for path in files(os.path.join(root, "crates"), ".antt"):
        for line in read(path).split("\n"):
            body, _ = code(line, "--")
            sig = SIGNATURE.match(body)
            if sig and not sig.group(3).startswith("goal."):
                for n in sig.group(2).split():
                    names.add(n)
                    if sig.group(1):
                        fields.add(n)
            for pattern in (BINDER, LET, LAMBDA):
                for m in pattern.finditer(body):
                    names.update(m.group(1).split())
            # a name in camel case is never made by the kit
            if not body.lstrip().startswith(("use ", "pub use ")) or "Rattle.std" not in body:
                camels.update(w for w in WORD.findall(body) if CAMEL.match(w) and "-" not in w)
    return {n for n in names | camels if is_old(n)}, {n for n in fields | camels if is_old(n)}


def source_words(root):
    words = set()
    for path in files(os.path.join(root, "crates"), ".rt"):
        words.update(re.findall(r"\b[A-Za-z][A-Za-z0-9]*(?:_[A-Za-z0-9]+)+\b", read(path)))
    return words


# words of the kit in the names of goals and steps
KIT_WORDS = ["in_ok", "in_err", "overflow_add", "overflow_sub", "overflow_mul", "overflow_cast", "overflow_step", "slice_bounds", "invariant_of", "type_inv", "deref_mut", "from_residual", "in_default"]


def joined(word, sources):
    """A goal's or a step's name: its parts that are one name of the source keep that name's spelling."""
    parts, out = word.split("-"), []
    while parts:
        for n in range(len(parts), 0, -1):
            one = "_".join(parts[:n])
            if n == 1 or one in sources:
                out.append(one)
                parts = parts[n:]
                break
    return "-".join(out)


def turner(names, fields, sources, apart, goal_file):
    def turn(m):
        word, text, at = m.group(0), m.string, m.start()
        if word in apart:
            return apart[word]
        if not is_old(word):
            return word
        made = goal_file and "-" in word and word not in names
        if made or text[:at].endswith("goal."):
            return joined(word, sources)
        if at and text[at - 1] == "." and not text[:at].endswith((" .", "(.", "λ.")):
            before = text[:at]
            if re.search(r"Rattle[\w.+]*\.$", before):
                return word
            return snake(word) if word in fields or snake(word) in sources else word
        return snake(word) if word in names else word

    return turn


def split_strings(line):
    """Parts of a line of src/, the odd ones being string literals."""
    return re.split(r'(b?"(?:[^"\\]|\\.)*")', line)


def main(root):
    names, fields = own_names(root)
    sources = source_words(root) | set(KIT_WORDS)
    crates = os.path.join(root, "crates")
    for path in files(crates, ".antt", ".rt", ".edit"):
        below = os.path.relpath(path, crates)
        apart = {old: new for where, old, new in APART if below.startswith(where)}
        if path.endswith(".edit"):
            apart = {}
        mark = "--" if path.endswith(".antt") else "//"
        turn = turner(names, fields, sources, apart, is_goal_file(path))
        out = []
        for line in read(path).split("\n"):
            body, note = code(line, mark)
            if path.endswith(".antt"):
                if re.match(r"\s*(pub )?use Rattle\.std\b", body):
                    out.append(line)
                    continue
                body = WORD.sub(turn, body)
            else:
                head = ""
                if path.endswith(".edit"):
                    m = re.match(r"(old|new): ", body)
                    if not m:
                        out.append(line)
                        continue
                    head, body = m.group(0), body[m.end():]
                parts = split_strings(body)
                parts[::2] = [WORD.sub(turn, p) if "Rattle.std" not in p else p for p in parts[::2]]
                body = head + "".join(parts)
            out.append(body + note)
        write(path, "\n".join(out))
    for path in list(files(os.path.join(root, "docs"), ".md")) + [os.path.join(root, "README.md")]:
        camel = lambda m: snake(m.group(0)) if m.group(0) in names and CAMEL.match(m.group(0)) else m.group(0)
        write(path, WORD.sub(camel, read(path)))


def write(path, text):
    if text != read(path):
        with open(path, "w", encoding="utf-8") as f:
            f.write(text)


if __name__ == "__main__":
    main(os.path.abspath(sys.argv[1] if len(sys.argv) > 1 else "."))

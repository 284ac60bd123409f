#!/usr/bin/env python3
"""Brings the repository's own names to today's spelling, once, after the toolchain's own script has run.

usage: python3 tools/respell.py        at the top of the repository

Definitions, lemmas, record fields and variables of specs/ and proofs/ that were written in camel case or with dashes
come to snake case (`foldByte-bits` to `fold_byte_bits`). Names that the checker makes from the code (`c.seal-into-n`,
`returns-in-ok-op`) come to today's form, in which a dash joins the parts and a source name keeps its underscores
(`c.seal_into-n`, `returns-in_ok-op`). The crate `hex` becomes `hex_pairs`, since the toolchain has a library of that
name. A lemma that would
have the name of a definition gets `_lem`. It prints the names of one file that fall together, and names that now read like something in the Rust beside them.
"""

import os
import re
import sys

TOKEN = re.compile(r"(?m:^|(?<=\s))--(?=\s|$)[^\n]*|[^\s(){}\[\],;.\u0060]+|\.|[(){}\[\],;\u0060]|\s+")
COMMENT = re.compile(r"(?m)(?:^|(?<=\s))--(?:\s.*)?$")
GENERATED = re.compile(r"^(returns|loop|invariant|decreases|overflow|bounds|slice_bounds|nonzero|prove|offset|in|then|else|After|In|Then|Else)-|-(requires|init|preserved|smaller)(-|$)")
# words that the checker makes, and methods of the library, that have an underscore today
MADE = """in_ok in_err in_default invariant_of overflow_add overflow_sub overflow_mul overflow_cast overflow_step copy_from_slice
as_slice as_mut_slice as_str push_str write_str write_char from_residual unwrap_or is_empty extend_from_slice split_first
from_utf8 from_be_bytes first_chunk""".split()


# lemmas that would have the name of a definition
LEMMAS = set()


def plain(name):
    name = name.replace("-", "_")
    return re.sub(r"(?<=[a-z0-9])([A-Z])", lambda m: "_" + m.group(1).lower(), name) if name[0].islower() else name


def snake(name):
    return plain(name) + ("_lem" if name in LEMMAS else "")


def files(suffix, *folders):
    for folder, dirs, names in os.walk("crates"):
        dirs[:] = sorted(d for d in dirs if d != "out")
        parts = folder.split(os.sep)
        if len(parts) > 2 and parts[2] in folders:
            for name in sorted(names):
                if name.endswith(suffix):
                    yield os.path.join(folder, name)


def read(path):
    with open(path, encoding="utf-8") as f:
        return f.read()


def is_answer(path):
    """A file that answers a function's goals: in a folder below proofs/."""
    parts = path.split(os.sep)
    return parts[2] == "proofs" and len(parts) > 4


def own_names(paths):
    """Names that the repository defines in antt, and those of them that are fields of records."""
    names, fields = set(), set()
    for path in paths:
        text = COMMENT.sub("", read(path))
        for line in text.split("\n"):
            m = re.match(r"\s*(?:pub |abbrev |unfoldable |record |data |module )*((?:[A-Za-z][\w'-]*\s+)*?[A-Za-z][\w'-]*)\s*:(?=\s)", line)
            if m:
                for n in m.group(1).split():
                    if not (is_answer(path) and GENERATED.search(n)):
                        names.add(n)
            for m in re.finditer(r"[({]\s*((?:[A-Za-z][\w'-]*\s+)*[A-Za-z][\w'-]*)\s+:\s", line):
                names.update(m.group(1).split())
            for m in re.finditer(r"(?:λ|let)\s+((?:[A-Za-z][\w'-]*\s*)+)[.:=]", line):
                names.update(m.group(1).split())
        for m in re.finditer(r"(?m)^( *)(?:pub )?record [^\n]* where\n((?:\1  [^\n]*\n|\n)*)", text):
            for f in re.finditer(r"(?m)^\s*(?:pub )?([A-Za-z][\w'-]*) :", m.group(2)):
                fields.add(f.group(1))
    return names, fields


def rust_words():
    words = set(MADE)
    for path in files(".rt", "src"):
        words.update(w for w in re.findall(r"\b[a-z][a-z0-9]*(?:_[a-z0-9]+)+\b", read(path)))
    return words


def generated(name, words):
    """A name that the checker makes, in today's form."""
    parts, out, i = name.split("-"), [], 0
    while i < len(parts):
        for j in range(len(parts), i, -1):
            word = "_".join(parts[i:j])
            if j == i + 1 or word in words or word.lower() in words and word.isupper():
                out.append(word)
                i = j
                break
    return "-".join(out)


def respell_antt(path, names, fields, words):
    text = read(path)
    out, clash, before = [], {}, ""
    answer = is_answer(path)
    for m in TOKEN.finditer(text):
        t = m.group(0)
        if t.startswith("--"):
            # a comment: camel case alone, since a dash may be English
            out.append(re.sub(r"\b[a-z]\w*[A-Z]\w*", lambda n: snake(n.group(0)) if n.group(0) in names else n.group(0), t))
            continue
        if answer:
            t = re.sub(r"·(?=\d)", "-", t)
        new = t
        if re.match(r"[A-Za-z]", t):
            camel = re.match(r"[a-z][\w'-]*[A-Z]", t) and not (answer and GENERATED.search(t))
            if "-" in t and "--" not in t:
                if before == "." and t not in fields or t not in names and t not in fields:
                    # a goal, a step of the code, or a place in it; elsewhere a name of the library
                    new = generated(t, words) if answer else t
                else:
                    new = snake(t)
            elif camel and t in names | fields:
                new = snake(t)
            if new != t or re.match(r"[\w'-]+$", t):
                clash.setdefault(new, set()).add(t)
        if not t.isspace():
            before = t
        out.append(new)
    return "".join(out), {n: olds for n, olds in clash.items() if len(olds) > 1}


def respell_rust(path, names):
    """Own names in clauses and ghost items: camel case anywhere but in strings and comments, dashes in `ghost use` lines."""
    text, seen = read(path), {}

    def one(m):
        t = m.group(0)
        if t[0] in "\"/'":
            return t
        if t in names and (re.match(r"[a-z]\w*[A-Z]", t)):
            seen[snake(t)] = t
            return snake(t)
        return t

    text = re.sub(r"//[^\n]*|\"(?:\\.|[^\"\\])*\"|b?'(?:\\.|[^'\\])'|[A-Za-z_]\w*", one, text)
    text = re.sub(r"(?m)^\s*ghost use .*$", lambda m: re.sub(r"[a-z][\w']*(?:-[\w']+)+", lambda n: snake(n.group(0)) if n.group(0) in names else n.group(0), m.group(0)), text)
    code = re.sub(r"//[^\n]*|\"(?:\\.|[^\"\\])*\"", "", text)
    bound = set(re.findall(r"\b(?:let (?:mut )?|fn |mod )([a-z_]\w*)", code)) | set(re.findall(r"[(,]\s*(?:mut )?([a-z_]\w*): ", code))
    return text, sorted(n for n in seen if n in bound)


def rename_hex():
    if not os.path.isdir("crates/hex"):
        return
    os.rename("crates/hex", "crates/hex_pairs")
    for path in list(files(".antt", "specs", "proofs")) + list(files(".rt", "src")):
        text = read(path)
        text = text.replace("Rattle.hex.", "Rattle.hex_pairs.")
        if path.endswith(".rt"):
            text = re.sub(r"\bhex::", "hex_pairs::", text)
        write(path, text)
    lines = [re.sub(r"\bhex\b(?!_)", "hex_pairs", l) if not l.startswith("#") else l for l in read("crates.txt").split("\n")]
    write("crates.txt", "\n".join(lines))


def write(path, text):
    with open(path, "w", encoding="utf-8") as f:
        f.write(text)


def main():
    if not os.path.isdir("crates"):
        print("respell: run it at the top of the repository", file=sys.stderr)
        return 2
    rename_hex()
    antt = list(files(".antt", "specs", "proofs"))
    names, fields = own_names(antt)
    words = rust_words()
    others = {plain(n) for n in names if "-" not in n}
    LEMMAS.update(n for n in names - fields if "-" in n and plain(n) in others)
    print("lemmas beside a definition of that name: " + ", ".join(sorted(LEMMAS)))
    for path in antt:
        text, clash = respell_antt(path, names, fields, words)
        write(path, text)
        for new, olds in sorted(clash.items()):
            print(f"falls together: {path}: {', '.join(sorted(olds))} are {new}")
    for path in files(".rt", "src"):
        text, bound = respell_rust(path, names)
        write(path, text)
        for n in bound:
            print(f"also in the Rust: {path}: {n}")
    return 0


if __name__ == "__main__":
    raise SystemExit(main())

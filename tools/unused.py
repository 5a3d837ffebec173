#!/usr/bin/env python3
"""Tells what nobody uses:

    tools/unused.py            tells each finding, unless it waits in tools/unused.txt
    tools/unused.py --write    writes that list anew

- function: a public function whose name stands nowhere but where it is defined, in crates, tests, benches and headers.
- variant: a variant of an enum that is looked at and never made.
- lemma: a definition of proofs/ that nothing cites.
- law: a call of a law that doesn't say so: by `laws::` before its name, or by the mark `// for the prover` behind it. A law is a
  function of a file laws.rt.

It reads words and no types, so two functions of one name hide each other. Status 1 if a line is told.
"""
import functools
import re
import sys
from collections import Counter

sys.dont_write_bytecode = True
from graph import TOP  # noqa: E402
from sources import code, crate_files, read, tracked  # noqa: E402

LIST = f"{TOP}/tools/unused.txt"
HEAD = """# What nobody uses and waits for the next change of its crate. tools/unused.py --write makes this list; what isn't here yet is
# refused.
"""
WORD = re.compile(r"[^\W\d][\w-]*")
FUNCTION = re.compile(r"^\s*pub (?:const |unsafe )*fn (\w+)", re.MULTILINE)
# a function without code, which follows its contract
LAW = re.compile(r"(?:(?!\n\s*(?:pub )?fn\b)[^\x00])*?\n\s*\{\s*\}")
ENUM = re.compile(r"^\s*pub(?:\(crate\))? enum (\w+)[^{]*\{", re.MULTILINE)
VARIANT = re.compile(r"^    (?:    )?([A-Z]\w*)\b", re.MULTILINE)
LEMMA = re.compile(r"^(?:abbrev |record |data |unfoldable )*(?:pub )?(?:abbrev |record |data )?([^\W\d]\w*)(?: \{[^}]*\})? :(?!:)", re.MULTILINE)
PATH = re.compile(r"\b([A-Z]\w*)::([A-Z]\w*)\b")
MARK = "for the prover"


@functools.lru_cache(maxsize=None)
def words(path):
    """How often each word stands in a file, comments left out."""
    return Counter(WORD.findall(code(path)))


def all_words():
    """How often each word stands in code: that of crates, of programs that try them, and of headers."""
    found = Counter()
    for path in tracked("crates/*.rt", "crates/*.h", "tests/*.rs", "bench/*.rs", "examples/*.rs", "crates/*.antt"):
        if path.endswith(".antt") and "/proofs/" in path:
            continue
        found.update(words(path))
    return found


def functions(found):
    for crate, path in crate_files("src", ".rt"):
        text = code(path)
        for function in FUNCTION.finditer(text):
            # a law is there to be proved
            if found[function[1]] < 2 and not path.endswith("laws.rt") and not LAW.match(text, function.end()):
                yield f"function {crate}: {function[1]}"


def block(text, start):
    depth = 0
    for at in range(start, len(text)):
        depth += {"{": 1, "}": -1}.get(text[at], 0)
        if not depth:
            return text[start + 1:at]
    return text[start + 1:]


def variants():
    """Each enum with its variants."""
    for crate, path in crate_files("src", ".rt"):
        text = code(path)
        for enum in ENUM.finditer(text):
            inside = block(text, enum.end() - 1)
            # what stands in braces or brackets within is a variant's own
            flat, depth = "", 0
            for letter in inside:
                depth -= letter in "})"
                flat += letter if not depth else ""
                depth += letter in "{("
            yield crate, path, enum[1], re.findall(r"(?:^|,|\n)\s*(?:#\[[^\]]*\]\s*)*([A-Z]\w*)", flat)


# what follows a variant where it is looked at: a pattern with its fields, and an arrow, another pattern, a guard or an `=`
LOOKED_AT = re.compile(r"\s*(?:\{[^{}]*\}|\((?:[^()]|\([^()]*\))*\))?\s*\)*\s*,?\s*(?:=>|\||if\b|=(?!=)|\)\s*=>|else\b)")


def is_looked_at(text, use):
    """Whether a variant stands in a pattern here."""
    line = text[text.rfind("\n", 0, use.start()) + 1:use.start()]
    before = text[max(0, use.start() - 120):use.start()].rsplit(";", 1)[-1]
    return "matches!(" in before or "if let " in line or ("let " in line and "=" not in line) or bool(LOOKED_AT.match(text, use.end()))


def unmade():
    """Variants that are looked at alone."""
    made = set()
    for path in tracked("crates/*.rt", "tests/*.rs", "bench/*.rs"):
        text = code(path)
        for use in PATH.finditer(text):
            if not is_looked_at(text, use):
                made |= {(use[1], use[2]), (path, use[2])} if use[1] == "Self" else {(use[1], use[2])}
    for crate, path, enum, names in variants():
        yield from (f"variant {crate}: {enum}::{name}" for name in names if not {(enum, name), (path, name)} & made)


def lemmas():
    """Definitions of proofs/ by the crates' own words, and how often each stands in proofs, definitions and code."""
    cited = Counter()
    for path in tracked("crates/*.antt", "crates/*.rt"):
        cited.update(words(path))
    for crate, path in crate_files("proofs", ".antt"):
        if path.count("/") > 3 or path.endswith("/Lib.antt"):
            continue
        for name in set(LEMMA.findall(code(path))):
            inside = words(path)[name]
            own = len(re.findall(rf"^(?:abbrev |pub |record |data )*{re.escape(name)}\b", code(path), re.MULTILINE))
            if cited[name] == inside and inside <= own:
                yield f"lemma {crate}: {name}"


def laws():
    """Calls of laws in code, without the mark."""
    files = [path for _, path in crate_files("src", ".rt") if path.endswith("/laws.rt")]
    names = {name for path in files for name in FUNCTION.findall(code(path))}
    for crate, path in crate_files("src", ".rt"):
        if path.endswith("laws.rt"):
            continue
        for line in read(f"{TOP}/{path}").splitlines():
            called = re.match(r"\s*(?:\w+::)*(\w+)(?:::<[^>]*>)?\(", line)
            if called and called[1] in names and "laws::" not in line and MARK not in line:
                yield f"law {crate}: {called[1]} in {path.split('/src/')[1]}"


def listed():
    with open(LIST, encoding="utf-8") as file:
        return [line.rstrip("\n") for line in file if line.strip() and not line.startswith("#")]


def main():
    lines = sorted({*functions(all_words()), *unmade(), *lemmas(), *laws()})
    if sys.argv[1:] == ["--write"]:
        with open(LIST, "w", encoding="utf-8") as file:
            file.write(HEAD + "".join(f"{line}\n" for line in lines))
        return 0
    if sys.argv[1:]:
        sys.exit(__doc__)
    known = listed()
    for line in sorted(set(lines) - set(known)):
        print(f"tools/unused.py: {line}")
    for line in sorted(set(known) - set(lines)):
        print(f"tools/unused.py: tools/unused.txt names what is used, or gone: {line}")
    return 1 if lines != sorted(known) else 0


sys.exit(main())

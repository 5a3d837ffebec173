"""Reads a header of C: its first comment, and each declaration with the comment before it."""
import re

COMMENT = re.compile(r"/\*(.*?)\*/\n?", re.DOTALL)
# what is for the compiler alone
HIDDEN = re.compile(r'^(?:#(?!define \w+ ).*|extern "C" \{|\})$')


def paragraphs(comment):
    """The paragraphs of a comment, each in one line."""
    plain = re.sub(r"^ ?\*?", "", comment, flags=re.MULTILINE)
    return [" ".join(part.split()) for part in re.split(r"\n\s*\n", plain) if part.strip()]


def chunk(text):
    """The paragraphs and the lines of a comment with its declaration, either of which may be none."""
    seen = "".join(f"{line}\n" for line in text.rstrip("\n").split("\n") if not HIDDEN.fullmatch(line))
    found = COMMENT.match(seen)
    lines = seen[found.end() if found else 0:].split("\n")[:-1]
    return (paragraphs(found[1]) if found else []), [line for line in lines if line]


def parts(text):
    """The header's first comment, and what follows it. Functions that have their bodies there are for the compiler, as is what
    follows them."""
    whole = re.split(r"\n\n+", text)
    inlined = next((at for at, each in enumerate(whole) if each.startswith("static inline ")), len(whole))
    if inlined < len(whole):
        # the comment that tells of them
        inlined -= 1
    found = [each for each in map(chunk, whole[:inlined]) if each != ([], [])]
    return found[0][0], found[1:]

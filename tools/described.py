"""Descriptions of pictures: files of lines `word: text`, as tools/pictures.py reads them."""
import os
import re
from dataclasses import dataclass


class WrongPicture(Exception):
    """A description that can't be drawn, and why."""


@dataclass
class Line:
    """A line of a description."""
    place: str
    word: str
    text: str

    def wrong(self, why):
        return WrongPicture(f"{self.place}: {why}")

    def match(self, pattern, form):
        """The parts of the text, which has to have this form."""
        found = re.fullmatch(pattern, self.text)
        if not found:
            raise self.wrong(f"this isn't `{self.word}: {form}`")
        return found.groups()


class Description:
    """The lines of a description, without those that are empty or comments."""

    def __init__(self, path):
        self.name, self.lines = os.path.basename(path), []
        with open(path, encoding="utf-8") as file:
            for at, text in enumerate(file.read().splitlines(), 1):
                if not text.strip() or text.startswith("#"):
                    continue
                word, is_parted, rest = text.partition(":")
                if not is_parted or not rest.strip():
                    raise WrongPicture(f"{self.name}:{at}: this isn't `word: text`")
                self.lines.append(Line(f"{self.name}:{at}", word.strip(), rest.strip()))

    def all(self, word):
        """The lines that begin with a word."""
        return [line for line in self.lines if line.word == word]

    def one(self, word):
        """The only line that begins with a word."""
        found = self.all(word)
        if len(found) != 1:
            raise WrongPicture(f"{self.name}: {len(found)} lines begin with `{word}:`, and one has to")
        return found[0]

    def have_only(self, *words):
        """Refuses a line of any other word."""
        for line in self.lines:
            if line.word not in ("kind", "title", "about", *words):
                raise line.wrong(f"`{line.word}:` is unknown here")

"""By which words a page of an archive is found: words as they are searched, in parts by the letters with which they begin."""
import array
import re
import unicodedata

from btx import html_file

WORD = re.compile(r"[^\W_]+")
MARKS = re.compile("[\u0300-\u036f]+")
# As the index of the website has them.
LETTERS = str.maketrans({"ß": "ss", "æ": "ae", "œ": "oe", "ø": "o", "ł": "l", "đ": "d", "ı": "i"})
FIRST = 2


def folded(text: str) -> str:
    """A text as it is searched: without capitals and accents, and letters that stand for two as two."""
    text = text.lower()
    if not text.isascii():
        text = MARKS.sub("", unicodedata.normalize("NFKD", text))
    return text if text.isascii() else text.translate(LETTERS)


def file_of(letters: str) -> str:
    return letters.encode("utf-8").hex() + ".js"


class Words:
    """For each word the numbers of the pages that have it."""

    def __init__(self) -> None:
        self.pages: dict[str, array.array[int]] = {}
        self.parts: dict[str, list[str]] = {}

    def add(self, number: int, text: str) -> None:
        for word in set(WORD.findall(folded(text))):
            self.pages.setdefault(word, array.array("I")).append(number)

    def letters(self) -> list[str]:
        """The first letters of all words, and for each the words that begin with it."""
        self.parts.clear()
        for word in sorted(self.pages):
            self.parts.setdefault(word[:FIRST], []).append(word)
        return list(self.parts)

    def script(self, letters: str) -> str:
        """A part: of a word's pages the first number, and how much greater each other is than the one before."""
        gaps: dict[str, list[int]] = {}
        for word in self.parts[letters]:
            pages = self.pages[word]
            gaps[word] = [pages[0], *(after - before for before, after in zip(pages, pages[1:]))]
        return f"Tamligub.words({html_file.data_of(letters)}, {html_file.data_of(gaps)});\n"

"""Characters with their places in a file, their tokens, and what is told of them."""
import bisect
import re

LONGEST_FILE = 16 * 1024 * 1024
TOKEN = re.compile(r'''(?P<blank>[ \t\r\f]+) | (?P<end>\n) | (?P<comment>//[^\n]*) | (?P<pragma>\{[^}\n]*\})
    | (?P<string>'[^'\n]*'|"[^"\n]*")
    | (?P<literal>(?:[A-Za-z_]\w*\#|[+-]?\d)[\w.\#+-]*)
    | (?P<place>%[\w.*]+) | (?P<word>[^\W\d]\w*) | (?P<sign>:=|=>|&N?(?!\w)|[:,;().&]) | (?P<other>.)''', re.S | re.X)


class Unreadable(Exception):
    """A file of which nothing can be taken: a line and a column, and why."""


class Told:
    """What isn't taken, with its place: a line and a column of the file, and where that is in words."""

    def __init__(self):
        self.found = set()

    def add(self, at, where, what):
        self.found.add((at, where, what))

    def lines(self):
        return [f'import: {line}:{column}: {where}{": " if where else ""}{what}'
                for (line, column), where, what in sorted(self.found)]


class Text:
    """Characters, each with its line and its column in the file."""

    def __init__(self):
        self.pieces, self.starts, self.places, self.length, self.joined = [], [], [], 0, None

    @staticmethod
    def of(characters, line=1, column=1):
        text = Text()
        text.add(characters, line, column)
        return text

    def add(self, characters, line, column):
        self.joined = None
        for piece in characters.splitlines(keepends=True) if '\n' in characters else [characters]:
            self.starts.append(self.length)
            self.places.append((line, column))
            self.pieces.append(piece)
            self.length += len(piece)
            line, column = line + 1, 1

    def characters(self):
        if self.joined is None:
            self.joined = ''.join(self.pieces)
        return self.joined

    def without_blanks(self):
        """Takes away blanks and line ends at the end."""
        while self.pieces and not self.pieces[-1].strip():
            self.length -= len(self.pieces.pop())
            self.starts.pop()
            self.places.pop()
        self.joined = None

    def at(self, offset):
        """The line and the column of a character."""
        if not self.starts:
            return 1, 1
        piece = bisect.bisect_right(self.starts, offset) - 1
        line, column = self.places[piece]
        return line, column + offset - self.starts[piece]

    def part(self, first, end):
        part, at = Text(), first
        for line in self.characters()[first:end].split('\n'):
            part.add(line + '\n', *self.at(at))
            at += len(line) + 1
        return part


class Token:
    """What kind it is, how it's written, and where it stands; its text may become what stands for it here."""

    def __init__(self, kind, text, start):
        self.kind, self.text, self.start, self.end = kind, text, start, start + len(text)
        self.upper = text.upper()

    def stands(self):
        return self.kind not in ('blank', 'end', 'comment')


def end_of_comment(text, start, nests):
    """Where a comment ends that begins there; None if it never does."""
    depth, at = 1, start + 2
    while depth:
        closed, opened = text.find('*)', at), text.find('(*', at) if nests else -1
        if closed < 0:
            return None
        depth, at = (depth + 1, opened + 2) if 0 <= opened < closed else (depth - 1, closed + 2)
    return at


def tokens_of(text, nests):
    """The tokens of a text: blanks, line ends and comments, too. One that is never closed has the kind `open`."""
    at = 0
    while at < len(text):
        if text.startswith('(*', at):
            end = end_of_comment(text, at, nests)
            yield Token('comment' if end else 'open', text[at:end], at)
            at = end or len(text)
        else:
            found = TOKEN.match(text, at)
            yield Token(found.lastgroup, found.group(), at)
            at = found.end()


def plain_comment(text):
    """A comment as this language has it, on as many lines: none within it, none to the line's end."""
    inner = text[2:].strip() if text.startswith('//') else text[2:-2]
    inner = re.sub(r'\(\*|\*\)', lambda it: it.group().strip('*'), inner.replace('\r', ''))
    return f'(* {inner} *)' if text.startswith('//') else f'(*{inner}*)'

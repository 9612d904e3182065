"""Exports of CODESYS 2.3 (.EXP): units as text, with properties in comments."""
import re

from .project import Project, Unit, Variable
from .source import Text, Unreadable, tokens_of

SECTIONS = ('VAR', 'VAR_INPUT', 'VAR_OUTPUT', 'VAR_IN_OUT', 'VAR_EXTERNAL', 'VAR_GLOBAL')
OTHER_SECTIONS = ('VAR_TEMP', 'VAR_STAT', 'VAR_CONFIG', 'VAR_ACCESS')
QUALIFIERS = ('CONSTANT', 'RETAIN', 'NON_RETAIN', 'PERSISTENT')
UNITS = ('PROGRAM', 'FUNCTION_BLOCK', 'FUNCTION')
ODD_TYPES = {'ARRAY': 'an array', 'STRING': 'a string', 'WSTRING': 'a string', 'POINTER': 'a pointer', '(': 'an enumeration',
             'STRUCT': 'a structure', 'REFERENCE': 'a reference'}
NO_NESTING = re.compile(r"\(\*\s*@NESTEDCOMMENTS\s*:=\s*'No'", re.I)
CLOSED_BY = {'TYPE': 'END_TYPE', 'ACTION': 'END_ACTION', 'LIBRARY': 'END_LIBRARY'}


def characters_of(content):
    """The characters of an export: UTF-8 if it's that, else those of Windows' western code page."""
    try:
        characters = content.decode('utf-8-sig')
    except UnicodeDecodeError:
        characters = ''.join(bytes([it]).decode('cp1252', errors='ignore') or chr(it) for it in content)
    return characters.replace('\r\n', '\n').replace('\r', '\n')


class Reader:
    """Goes over the tokens of an export that stand for something, and keeps the comments on the way."""

    def __init__(self, characters):
        self.characters, self.text, self.project = characters, Text.of(characters), Project()
        self.nests = not NO_NESTING.search(characters)
        self.left = tokens_of(characters, self.nests)
        self.comments, self.ahead, self.declared = [], None, 0
        self.last_unit = None
        self.next()

    def next(self):
        """The next token; the one behind it is looked at."""
        token, self.ahead = self.ahead, None
        self.behind = token.start + len(token.text) if token else 0
        for it in self.left:
            if it.kind == 'open':
                raise Unreadable(self.text.at(it.start), 'a comment that is never closed')
            if it.kind == 'comment':
                self.comment(it)
            if it.stands():
                self.ahead = it
                break
        return token

    def comment(self, it):
        if re.match(r'\(\*\s*@END_DECLARATION', it.text):
            self.declared = it.start + len(it.text)
        elif not re.match(r'\(\*\s*@', it.text):
            self.comments.append(it)

    def upper(self):
        return self.ahead.upper if self.ahead else ''

    def place(self):
        """Of what is ahead."""
        return self.text.at(self.ahead.start if self.ahead else self.text.length)

    def starts_line(self):
        start = self.ahead.start
        return not self.characters[self.characters.rfind('\n', 0, start) + 1:start].strip()

    def read(self):
        while self.ahead:
            word = self.upper() if self.starts_line() else ''
            self.comments = [] if word else self.comments
            if word in UNITS:
                self.unit()
            elif word == 'VAR_GLOBAL':
                for variable in self.section(None):
                    self.project.add_global(variable)
            elif word in CLOSED_BY:
                self.closed(word)
            elif word == 'VAR_CONFIG':
                self.project.told.append((self.place(), '', word))
                self.next()
            else:
                self.next()
        return self.project

    def past(self, word, what):
        """Goes on behind a word at the start of a line."""
        at = self.place()
        while self.ahead and not (self.upper() == word and self.starts_line()):
            if self.upper() in UNITS and self.starts_line():
                break
            self.next()
        if self.upper() != word:
            raise Unreadable(at, f'{what} without {word}')
        return self.next()

    def closed(self, word):
        at = self.place()
        self.next()
        name = self.next()
        if word == 'TYPE' and name:
            self.project.types[name.upper] = at
        elif word == 'ACTION' and name and self.last_unit:
            self.last_unit.tell(at, f'an action: {name.text}')
        self.past(CLOSED_BY[word], word)

    def unit(self):
        at, kind, name = self.place(), self.next().upper, self.next()
        unit = self.last_unit = Unit(kind, name.text if name else '', at)
        unit.nests = self.nests
        if self.upper() == ':':
            self.next()
            unit.result, unit.result_odd = self.type()
        unit.comment = self.said()
        while self.upper() in SECTIONS + OTHER_SECTIONS:
            if self.upper() not in SECTIONS[:5]:
                unit.tell(self.place(), self.upper())
            unit.variables += self.section(unit)
        first = self.first_of_body()
        end = self.past(f'END_{kind}', f'{kind} {unit.name}')
        self.project.add(unit)
        unit.body = self.text.part(first, end.start)

    def first_of_body(self):
        """Where the body begins: on the line behind the declarations, or with what stands behind them on theirs."""
        self.comments = []
        start = max(self.declared, self.behind)
        end = self.characters.find('\n', start) + 1
        return end if end and not self.characters[start:end].strip() else start

    def said(self):
        """The comments since the last call, each without its signs."""
        said = [' '.join(it.text.removeprefix('//').removeprefix('(*').removesuffix('*)').split()) for it in self.comments]
        self.comments = []
        return ' '.join(it for it in said if it)

    def section(self, unit):
        section, qualifiers, variables = self.next().upper, set(), []
        while self.upper() in QUALIFIERS:
            qualifiers.add(self.next().upper)
        section = section if section in SECTIONS else 'VAR'
        while self.upper() != 'END_VAR':
            if not self.ahead or self.upper() in UNITS + SECTIONS + OTHER_SECTIONS:
                raise Unreadable(self.place(), f'{section} without END_VAR')
            found = self.declaration(unit, section, qualifiers)
            variables += found
        self.next()
        return variables

    def declaration(self, unit, section, qualifiers):
        """The variables of a declaration, with the comment on its line."""
        above, names = self.said(), []
        while self.ahead and self.ahead.kind == 'word' and self.upper() != 'AT':
            names.append(Variable(self.ahead.text, self.place(), section, qualifiers))
            self.next()
            if self.upper() != ',':
                break
            self.next()
        place = self.address()
        if not names or self.upper() != ':':
            self.tell(unit, "a declaration that can't be read")
            self.past_semicolon()
            return []
        self.next()
        type_, odd = self.type()
        first, end = self.first_value()
        for variable in names:
            variable.type, variable.odd, variable.place, variable.first = type_, odd, place, first
        names[0].above = above
        names[-1].comment = self.said_on_line(end)
        return names

    def tell(self, unit, what):
        if unit:
            unit.tell(self.place(), what)
        else:
            self.project.told.append((self.place(), '', what))

    def address(self):
        if self.upper() != 'AT':
            return None
        self.next()
        return self.next().text if self.ahead and self.ahead.kind == 'place' else ''

    def type(self):
        """A type's name, and what it is where this language can have none such."""
        token = self.next()
        if token and token.upper in ODD_TYPES:
            odd = ODD_TYPES[token.upper]
        elif self.upper() == '(' and token:
            odd = 'a subrange'
        else:
            odd = ''
        if odd:
            self.past_others(';', ':=')
        return token.text if token else '', odd

    def first_value(self):
        """What is written behind := up to the semicolon, and where that stands."""
        if self.upper() != ':=':
            return None, self.past_semicolon()
        self.next()
        start = self.ahead.start if self.ahead else len(self.characters)
        end = self.past_semicolon()
        return ' '.join(self.characters[start:end].split()), end

    def past_others(self, *words):
        """Goes on to one of these words, or to one that ends a declaration wherever it stands."""
        while self.ahead and self.upper() not in (*words, 'END_VAR', *SECTIONS, *OTHER_SECTIONS, *UNITS):
            self.next()

    def past_semicolon(self):
        self.past_others(';')
        start = self.ahead.start if self.ahead else len(self.characters)
        if self.upper() == ';':
            self.next()
        return start

    def said_on_line(self, start):
        """The comments that begin on the line of a character; those further down belong to what follows."""
        end = self.characters.find('\n', start) % (len(self.characters) + 1)
        later = [it for it in self.comments if it.start > end]
        self.comments = [it for it in self.comments if it.start <= end]
        said, self.comments = self.said(), later
        return said


def read(content):
    """The project in the bytes of a file."""
    characters = characters_of(content)
    if '\0' in characters:
        at = characters.index('\0')
        raise Unreadable(Text.of(characters).at(at), 'no text: a byte 0')
    return Reader(characters).read()

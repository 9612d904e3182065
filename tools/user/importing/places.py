"""Places of a file and what they are here: how bits, words and double words are numbered, and what shares memory."""
import re

from .bodies import Operand

SHAPE = re.compile(r'%([IQM])([XWD]?)(\d+)(?:\.(\d+))?$', re.I)
NATURAL = {'X': 'BOOL', 'W': 'INT', 'D': 'DINT'}
TYPES = {'X': ('BOOL',), 'W': ('INT', 'WORD'), 'D': ('DINT', 'TIME', 'REAL', 'DWORD')}
MOST = 64  # bytes of bits, and words


class Places:
    """By `bytes`, %IX2.7 is the bit 7 of byte 2, %IW1 has the bytes 2 and 3, %ID1 those from 4 to 7. By `words`, %IX1.15 is
    the bit 15 of word 1. By `apart`, bits, words and double words have no memory in common, and stay as they are."""

    def __init__(self, numbered):
        self.numbered, self.seen = numbered, {}

    def place(self, text, told):
        """What a place is here, and its size; None where there is none."""
        shape = SHAPE.match(text)
        if not shape or (shape[4] is None) == (shape[2].upper() in ('', 'X')):
            told(f'a place of another form: {text}')
            return None
        area, size, number = shape[1].upper(), shape[2].upper() or 'X', int(shape[3])
        bit = int(shape[4] or 0)
        if size == 'X' and self.numbered == 'words' and bit < 16:
            number, bit = 2 * number + bit // 8, bit % 8
        if size == 'D' and self.numbered != 'apart':
            number *= 2
        if bit > 7:
            told(f'a bit above 7: {text}')
        elif number + (size == 'D') >= MOST or size == 'D' and number % 2:
            told(f'a place beyond those that there are: {text}')
        else:
            self.see(text, area, size, number, told)
            return (f'%{area}{size}{number}' + (f'.{bit}' if size == 'X' else '')), size
        return None

    def see(self, text, area, size, number, told):
        """Keeps which memory a place has, and tells what another one shares with it that it doesn't share here."""
        if self.numbered == 'apart':
            units = [(area, size, number)] if size == 'X' else [(area, 'W', number + it) for it in range(1 + (size == 'D'))]
        else:
            units = [(area, '', it) for it in {'X': [number], 'W': [2 * number, 2 * number + 1],
                                               'D': range(2 * number, 2 * number + 4)}[size]]
        for unit in units:
            other_size, other = self.seen.setdefault(unit, (size, text))
            if other_size != size:
                told(f'memory that {text} and {other} share')
                break

    def operand(self, token, told):
        found = self.place(token.text, lambda what: told(what, token))
        if not found:
            return Operand(None)
        token.text, size = found
        return Operand(NATURAL[size], 'an input' if token.text[1] == 'I' else '')

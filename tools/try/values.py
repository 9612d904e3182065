"""The values of the language once more: literals, what operators and functions of one input give, and how a value is
shown. An independent reading, in Python, of docs/LANGUAGE.md: nothing proves it, and `plc` doesn't use it. A BOOL is a
bool, a REAL a float, every other value an int."""
import fractions
import math
import re
import struct

BITS = {'INT': 16, 'DINT': 32, 'TIME': 32, 'LINT': 64, 'WORD': 16, 'DWORD': 32}
UNIT_OF_TIME = {'D': 86_400_000, 'H': 3_600_000, 'M': 60_000, 'S': 1000, 'MS': 1}


class Stop(Exception):
    """The program stops: overflow, or zerodivisor."""


def within(type_, number):
    """A whole number of a type with a sign."""
    if not -2 ** (BITS[type_] - 1) <= number < 2 ** (BITS[type_] - 1):
        raise Stop('overflow')
    return number


def signed(number, bits):
    """The number whose two's complement these bits are."""
    number &= 2 ** bits - 1
    return number - 2 ** bits if number >> (bits - 1) else number


def pattern_of(real):
    return struct.unpack('>I', struct.pack('>f', real))[0]


def real_of(pattern):
    """The REAL of a pattern; of infinity, of no number and of -0 it's 0.0."""
    real = struct.unpack('>f', struct.pack('>I', pattern))[0]
    return real if math.isfinite(real) and real else 0.0


def rounded(number):
    """The REAL nearest to a double. Of a sum, product, quotient or root that is nearest to the exact one, too, since a
    double has more than twice as many digits."""
    try:
        return struct.unpack('>f', struct.pack('>f', number))[0] or 0.0
    except OverflowError:
        raise Stop('overflow') from None


def nearest(exact):
    """The REAL nearest to an exact number, of two the one with an even last bit."""
    exact = fractions.Fraction(exact)
    if not exact:
        return 0.0
    size = exact.numerator.bit_length() - exact.denominator.bit_length()
    size -= abs(exact) < fractions.Fraction(2) ** size
    step = fractions.Fraction(2) ** (max(size, -126) - 23)
    return rounded(float(round(exact / step) * step))


def first_value(type_):
    return False if type_ == 'BOOL' else 0.0 if type_ == 'REAL' else 0


def literal(text):
    """The type and the value of a literal; a bare number has no type yet."""
    text = text.upper()
    if text in ('TRUE', 'FALSE'):
        return 'BOOL', text == 'TRUE'
    head, mark, rest = text.rpartition('#')
    if head in ('T', 'TIME'):
        parts = re.findall(r'([\d.]+)(MS|[DHMS])', rest.replace('_', ''))
        passed = int(sum(fractions.Fraction(number) * UNIT_OF_TIME[unit] for number, unit in parts))
        return 'TIME', -passed if rest[0] == '-' else passed
    type_, _, base = head.rpartition('#') if not head.isdigit() else ('', '', head)
    if head and not base.isdigit():
        type_, base = head, ''
    if type_ == 'REAL' or not type_ and not base and ('.' in rest):
        return 'REAL', real_of(int(rest[1:])) if rest.startswith('P') else nearest(fractions.Fraction(rest))
    if type_ == 'BOOL':
        return 'BOOL', rest in ('1', 'TRUE')
    return type_ or None, int(rest.replace('_', ''), int(base or 10))


def shown(type_, value):
    """A value as the debugger prints it; of a REAL its pattern."""
    if type_ == 'BOOL':
        return 'TRUE' if value else 'FALSE'
    if type_ in ('WORD', 'DWORD'):
        return f'{type_}#16#{value:0{BITS[type_] // 4}X}'
    if type_ == 'REAL':
        return f'REAL#P{pattern_of(value)}'
    return f'T#{value}ms' if type_ == 'TIME' else f'{type_}#{value}'


# ---- what operators and functions of one input give

def quotient(type_, a, b):
    if b == 0:
        raise Stop('zerodivisor')
    return rounded(a / b) if type_ == 'REAL' else within(type_, abs(a) // abs(b) * (1 if (a < 0) == (b < 0) else -1))


def remainder(type_, a, b):
    """It has the sign of a."""
    if b == 0:
        raise Stop('zerodivisor')
    return abs(a) % abs(b) * (-1 if a < 0 else 1)


def arithmetic(type_, exact):
    return rounded(exact) if type_ == 'REAL' else within(type_, exact)


def moved_bits(operator, type_, bits, by):
    """The bits of a WORD or DWORD, shifted or rotated."""
    width = BITS[type_]
    if by < 0:
        raise Stop('overflow')
    if operator in ('SHL', 'SHR'):
        return (bits << min(by, width)) % 2 ** width if operator == 'SHL' else bits >> min(by, width)
    by = by % width if operator == 'ROL' else -by % width
    return (bits << by | bits >> (width - by)) % 2 ** width


COMPARED = {'GT': lambda a, b: a > b, 'GE': lambda a, b: a >= b, 'EQ': lambda a, b: a == b,
            'NE': lambda a, b: a != b, 'LE': lambda a, b: a <= b, 'LT': lambda a, b: a < b}
SAME_TYPE = {'AND': lambda t, a, b: a & b, 'OR': lambda t, a, b: a | b, 'XOR': lambda t, a, b: a ^ b,
             'ADD': lambda t, a, b: arithmetic(t, a + b), 'SUB': lambda t, a, b: arithmetic(t, a - b),
             'MUL': lambda t, a, b: arithmetic(t, a * b), 'DIV': quotient, 'MOD': remainder,
             'MIN': lambda t, a, b: min(a, b), 'MAX': lambda t, a, b: max(a, b)}


def combined(operator, left, right):
    """A value with a type, of two of one type."""
    if operator in COMPARED:
        return 'BOOL', COMPARED[operator](left[1], right[1])
    return left[0], SAME_TYPE[operator](left[0], left[1], right[1])


def negated(value):
    type_, bits = value
    return type_, not bits if type_ == 'BOOL' else bits ^ (2 ** BITS[type_] - 1)


def root(real):
    if real < 0:
        raise Stop('overflow')
    return rounded(math.sqrt(real))


def converted(name, value):
    """What a function from one type to another gives."""
    source, target = name.split('_TO_')
    if source == 'REAL':
        return target, within(target, round(value))
    if target == 'REAL':
        return target, nearest(value)
    if 'WORD' in name:
        return target, signed(value, BITS[target]) if target in ('INT', 'DINT') else value % 2 ** BITS[target]
    return target, within(target, value)


def of_one_input(name, value):
    type_, given = value
    if name == 'NOT':
        return negated(value)
    if name == 'ABS':
        return type_, abs(given) if type_ == 'REAL' else within(type_, abs(given))
    if name == 'SQRT':
        return type_, root(given)
    if name == 'TRUNC':
        return 'DINT', within('DINT', math.trunc(given))
    return value if name == 'MOVE' else converted(name, given)

"""Bodies in Instruction List: read line by line, each operand looked up, and written again as this language has it."""
import re
import textwrap

from .project import ELEMENTARY, FIELD_TYPES, OTHER_FIELDS, STANDARD, elementary, fault_of_name
from .source import plain_comment, tokens_of

ARITHMETIC = ('ADD', 'SUB', 'MUL', 'DIV', 'MOD', 'MIN', 'MAX')
COMPARISONS = ('GT', 'GE', 'EQ', 'NE', 'LE', 'LT')
LOGIC = ('AND', 'OR', 'XOR', '&', 'ANDN', 'ORN', 'XORN', '&N')
SHIFTS = ('SHL', 'SHR', 'ROL', 'ROR')
STORES = ('ST', 'STN', 'S', 'R')
LOADS = ('LD', 'LDN')
JUMPS = ('JMP', 'JMPC', 'JMPCN')
CALLS = ('CAL', 'CALC', 'CALCN')
RETURNS = ('RET', 'RETC', 'RETCN')
CONDITIONAL = ('JMPC', 'JMPCN', 'CALC', 'CALCN', 'RETC', 'RETCN')
CHOICES = ('LIMIT', 'SEL', 'MUX')
# functions of one input, and the types that they go from and to; None: that of the current result
OF_ONE = {'NOT': (None, None), 'ABS': (None, None), 'MOVE': (None, None), 'SQRT': ('REAL', 'REAL'), 'TRUNC': ('REAL', 'DINT')}
OF_ONE.update({f'{a}_TO_{b}': (a, b) for a, b in (it.split() for it in '''INT DINT, DINT INT, DINT LINT, LINT DINT, INT REAL,
    DINT REAL, LINT REAL, TIME REAL, REAL INT, REAL DINT, REAL LINT, REAL TIME, TIME DINT, DINT TIME, WORD INT, INT WORD,
    DWORD DINT, DINT DWORD, WORD DWORD, DWORD WORD'''.split(','))})
INPUTS = ('S1', 'R1', 'CLK', 'CU', 'CD', 'PV', 'IN', 'PT', 'LD1')
STATEMENTS = ('IF', 'CASE', 'FOR', 'WHILE', 'REPEAT', 'RETURN', 'EXIT')
GRAPHICAL = re.compile(r'_(FBD|LD|SFC|CFC)_?BODY$|_CFC$|_?INITIAL_STEP$|_?STEP$')
PREFIXES = {'T': 'TIME', 'TIME': 'TIME', **{it: it for it in ('BOOL', 'INT', 'DINT', 'LINT', 'REAL', 'WORD', 'DWORD')}}
BARE = 'a bare number'
NUMBER = re.compile(r'([+-]?\d[\d_]*|2#[01_]+|8#[0-7_]+|16#[\da-f_]+)$', re.I)
REAL = re.compile(r'[+-]?\d[\d_]*(\.\d[\d_]*)?([Ee][+-]?\d+)?$')

TIME = re.compile(r'[+-]?(\d[\d_]*(\.\d+)?(d|h|ms|m|s)_?)+$', re.I)
# how the part behind # is written, where it's no whole number
SHAPES = {'REAL': REAL, 'TIME': TIME, 'BOOL': re.compile('(0|1|TRUE|FALSE)$', re.I)}


class Operand:
    """Its type (None where that isn't known), and why it can't be written to ('' if it can)."""

    def __init__(self, type_, unwritable='', token=None):
        self.type, self.unwritable, self.token = type_, unwritable, token


def real_as_written(text):
    """A REAL with digits on both sides of its point, and without underscores."""
    number, _, exponent = text.replace('_', '').upper().partition('E')
    return (number if '.' in number else number + '.0') + (f'E{exponent}' if exponent else '')


def literal_of(text):
    """How a literal is written here, and its type, BARE for a number without one; or None and what it is."""
    prefix, mark, rest = text.rpartition('#')
    prefix = prefix.upper().partition('#')[0]
    if not mark or prefix.isdigit():
        if not mark and REAL.match(text) and re.search('[.Ee]', text):
            return real_as_written(text), 'REAL'
        return (text, BARE) if NUMBER.match(text) else (None, f"a literal that can't be read: {text}")
    if prefix not in PREFIXES:
        return None, f'a literal of another type: {text}'
    kind = PREFIXES[prefix]
    if not SHAPES.get(kind, NUMBER).match(rest):
        return None, f"a literal that can't be read: {text}"
    if kind == 'REAL':
        return 'REAL#' + real_as_written(rest), 'REAL'
    return text, kind


def literal_as(text, wanted):
    """A bare number as it's written where a value of a type is wanted that doesn't follow from its place."""
    if wanted == 'REAL' and re.match(r'[+-]?[\d_]+$', text):
        return real_as_written(text)
    if wanted == 'BOOL' and text in ('0', '1'):
        return ('FALSE', 'TRUE')[int(text)]
    return f'{wanted}#{text}' if wanted in ('DINT', 'LINT', 'WORD', 'DWORD') else text


class Instruction:
    """The tokens of one that stand for something, without its label."""

    def __init__(self, line, tokens):
        self.line, self.label = line, None
        if [it.text for it in tokens[1:2]] == [':']:
            self.label, tokens = tokens[0], tokens[2:]
        self.tokens = tokens
        self.word = tokens[0].upper if tokens else ''


class Body:
    """The body of a unit, in a project of which `names` finds what a name stands for and `places` what a place is here."""

    def __init__(self, unit):
        self.unit = unit
        self.tokens = list(tokens_of(unit.body.characters(), unit.nests)) if unit.body else []
        self.instructions = list(self.cut())
        self.labels = {it.label.upper for it in self.instructions if it.label}

    def cut(self):
        """The instructions; that of a call goes on over line ends until its parenthesis is closed."""
        line, first, tokens, depth = 1, 1, [], 0
        for token in self.tokens:
            if token.kind == 'end':
                if tokens and not depth:
                    yield Instruction(first, tokens)
                    tokens = []
                line += 1
            elif token.stands():
                first = first if tokens else line
                tokens.append(token)
                if any(it.upper in CALLS for it in tokens[:3]):
                    depth = max(0, depth + (token.text == '(') - (token.text == ')'))
            line += token.text.count('\n') if token.kind == 'comment' else 0
        if tokens:
            yield Instruction(first, tokens)

    def words(self):
        """The operators of all instructions, among which are the functions that it calls."""
        return {it.word for it in self.instructions}

    def called(self):
        """The names of what it calls."""
        return [it.tokens[1] for it in self.instructions if it.word in CALLS and it.tokens[1:]]

    def mentioned(self):
        """All words that stand in it."""
        return {it.upper for it in self.tokens if it.kind == 'word'}

    def other_language(self):
        """The token that shows that it's no Instruction List, and what it is then."""
        for it in self.tokens:
            if it.kind == 'open':
                return it, 'a comment that is never closed'
        for it in self.instructions:
            token = it.tokens[0] if it.tokens else it.label
            if GRAPHICAL.match(token.upper):
                return token, 'a body in a graphical language'
            signs = {one.text for one in it.tokens}
            if it.word in STATEMENTS or ';' in signs or ':=' in signs and it.word not in CALLS:
                return token, 'a body in Structured Text'
        return None

    def written(self):
        """Its lines as they stand now, with two blanks before them."""
        out = []
        for token in self.tokens:
            if token.kind == 'comment' and not re.match(r'\(\*\s*@', token.text):
                out.append(plain_comment(token.text))
            elif token.kind not in ('comment', 'pragma'):
                out.append(token.text)
        text = textwrap.dedent(''.join(out).replace('\r', '').expandtabs(8)).strip('\n')
        lines = [it.rstrip() for it in text.split('\n')]
        while lines and not lines[-1]:
            lines.pop()
        return [it and f'  {it}' for it in lines]


class Judge:
    """Goes over a body with the type of the current result: None where it isn't known or there is none."""

    def __init__(self, body, names, places, tell):
        self.body, self.names, self.places, self.tell = body, names, places, tell
        self.cr, self.open = None, []
        self.none = 'at the start'  # where there is no current result, in words; '' if there is one

    def at(self, token):
        return self.body.unit.body.at(token.start)

    def told(self, what, token=None):
        self.tell(self.at(token or self.now.tokens[0]), f'line {self.now.line}', what)

    def judge(self):
        for self.number, self.now in enumerate(self.body.instructions):
            self.head()
            if self.now.tokens:
                self.closed()
                self.present()
                self.instruction()
        if self.open:
            self.told('a parenthesis that is never closed')

    def closed(self):
        """Tells what may not stand within a parenthesis."""
        if self.open and (self.now.label or self.now.word in (*JUMPS, *CALLS, *RETURNS, 'SEL', 'MUX')
                          or self.names.function(self.now.word)):
            self.told(f'a label, a jump, a call or a function within a parenthesis: {self.now.word}')
            self.open = []
        elif self.now.word == ')' and not self.open:
            self.told('a parenthesis that was never opened')

    def present(self):
        """Tells an instruction that wants a current result where there is none, and keeps whether there is one behind it."""
        word, behind = self.now.word, self.now.tokens[1:]
        if self.none and word not in (*LOADS, 'JMP', 'CAL', 'RET'):
            self.told(f'no current result {self.none}')
        if word in ('JMP', 'RET') or word not in CALLS and [it.text for it in behind] == ['(']:
            self.none = f'behind {word}'
        elif word in CALLS and behind and self.names.is_own(self.body.unit, behind[0]):
            self.none = 'behind a call of a block'
        elif word != 'CAL':
            self.none = ''

    def head(self):
        if not self.now.label:
            return
        self.cr, self.none = None, 'at a label'
        fault = fault_of_name(self.now.label.text)
        if fault:
            self.told(fault.replace('name', 'label'), self.now.label)

    def instruction(self):
        word, behind = self.now.word, self.now.tokens[1:]
        if word in JUMPS:
            self.jump(behind)
        elif word in CALLS:
            self.call(behind)
        elif word in OF_ONE or word in RETURNS or word == ')':
            self.alone(word, behind)
        elif word in CHOICES or self.names.function(word):
            self.function(word, behind)
        elif word in LOADS + STORES + LOGIC + ARITHMETIC + COMPARISONS + SHIFTS:
            self.operator(word, behind)
        elif word in INPUTS:
            self.told(f'an input operator: {word}')
        else:
            self.told(f'no operator here, and no function of the file: {self.now.tokens[0].text}')
            self.cr = None

    def same(self, one, other, token=None):
        """Tells two types that aren't the same; a bare number goes with any but REAL and TIME."""
        if None in (one, other) or one == other:
            return
        if BARE in (one, other) and not {'REAL', 'TIME'} & {one, other}:
            return
        self.told(f"a conversion that isn't written: {other} to {one}", token)

    # ---- operands

    def operand(self, tokens, wanted=None):
        """What some tokens stand for; they are written as they are here."""
        texts = [it.text for it in tokens]
        first = tokens[0] if tokens else None
        if not tokens:
            self.told('no operand')
        elif first.upper in ('TRUE', 'FALSE') and len(tokens) == 1:
            return Operand('BOOL', 'a literal')
        elif first.kind == 'literal' and len(tokens) == 1:
            return self.literal(first, wanted)
        elif first.kind == 'place' and len(tokens) == 1:
            return self.places.operand(first, self.told)
        elif first.kind == 'word' and len(tokens) == 1:
            return self.names.operand(self.body.unit, first, self.told)
        elif [it.kind for it in tokens] == ['word', 'sign', 'word'] and texts[1] == '.':
            return self.field(first, tokens[2])
        else:
            self.told(f'{self.oddity(tokens, texts)}: {self.as_written(tokens)}', first)
        return Operand(None)

    def as_written(self, tokens):
        return ' '.join(self.body.unit.body.characters()[tokens[0].start:tokens[-1].end].split())

    @staticmethod
    def oddity(tokens, texts):
        if tokens[0].kind == 'string':
            return 'a string'
        if '[' in texts:
            return 'an element of an array'
        if '^' in texts:
            return 'what a pointer leads to'
        if tokens[0].text == '(' or '(' in texts:
            return 'an expression, or instructions between parentheses'
        if tokens[-1].kind == 'literal' and '.' in texts:
            return 'a bit of a word'
        if texts[0] == '.':
            return 'a global variable behind a dot'
        return 'a field of a field' if texts.count('.') > 1 else 'an expression'

    def literal(self, token, wanted):
        written, kind = literal_of(token.text)
        if written is None:
            self.told(kind, token)
            return Operand(None)
        if kind == BARE and wanted == 'REAL':
            written, kind = literal_as(written, 'REAL'), 'REAL'
        token.text = written
        return Operand(kind, 'a literal', token)

    def field(self, instance, field):
        """A field of an instance, of a block of the file or of the standard."""
        block = self.names.block_of(self.body.unit, instance, self.told)
        return self.field_of(block, field) if block else Operand(None)

    def field_of(self, block, field):
        if isinstance(block, str):
            inputs, outputs = STANDARD[block]
            if field.upper in OTHER_FIELDS and field.upper not in inputs + outputs:
                field.text = OTHER_FIELDS[field.upper]
                field.upper = field.text
            if field.upper in inputs + outputs:
                return Operand(FIELD_TYPES.get(field.upper, 'BOOL'), 'an output' if field.upper in outputs else '')
            self.told(f'{block} has no {field.text}', field)
            return Operand(None)
        found = next((it for it in block.variables if it.key() == field.upper), None)
        if found and not found.is_constant() and found.section in ('VAR_INPUT', 'VAR_OUTPUT', 'VAR_IN_OUT'):
            return Operand(found.elementary(), 'an output' if found.section == 'VAR_OUTPUT' else '')
        self.told(f'{block.name} has no input and no output {field.text}', field)
        return Operand(None)

    def write(self, tokens, operand):
        if operand.unwritable:
            self.told(f'a write to {operand.unwritable}: {self.as_written(tokens)}', tokens[0])

    # ---- instructions

    def jump(self, behind):
        if len(behind) != 1 or behind[0].kind != 'word':
            self.told('a jump to no label')
        elif behind[0].upper not in self.body.labels:
            self.told(f'a jump to no label: {behind[0].text}', behind[0])
        self.conditional()

    def conditional(self):
        if self.now.word in CONDITIONAL:
            self.same('BOOL', self.cr)
        elif self.now.word not in CALLS:
            self.cr = None

    def alone(self, word, behind):
        if behind:
            self.told(f'something behind {word}: {behind[0].text}', behind[0])
        if word == ')':
            operator, kept = self.open.pop() if self.open else (None, None)
            self.same(kept, self.cr)
            self.cr = 'BOOL' if operator in COMPARISONS else kept or self.cr
        elif word in RETURNS:
            self.conditional()
        else:
            before, after = OF_ONE[word]
            self.same(before, self.cr)
            self.cr = after or self.cr

    def function(self, word, behind):
        parts = parts_of(behind)
        if behind and behind[0].text == '(':
            self.told(f'arguments of a function between parentheses: {word}', behind[0])
            return
        unit = self.names.function(word)
        if unit:
            inputs = [it.elementary() for it in unit.variables if it.section == 'VAR_INPUT']
            if len(parts) + 1 != len(inputs):
                self.told(f'{len(parts) + 1} inputs of {unit.name}, which has {len(inputs)}')
            self.same(inputs[0] if inputs else None, self.cr)
            for part, wanted in zip(parts, inputs[1:]):
                self.same(wanted, self.operand(part, wanted).type, part[0] if part else None)
            self.cr = elementary(unit.result)
        else:
            self.choice(word, parts)

    def choice(self, word, parts):
        """LIMIT, SEL or MUX, whose operands have one type."""
        types = [self.cr] if word == 'LIMIT' else []
        wanted = next((it for it in types + [self.type_of(it) for it in parts] if it not in (None, BARE)), None)
        self.same({'SEL': 'BOOL', 'MUX': 'INT'}.get(word, wanted), self.cr)
        for part in parts:
            self.same(wanted, self.operand(part, wanted).type, part[0] if part else None)
        self.cr = wanted

    def operator(self, word, behind):
        if behind and behind[0].text == '(' and word not in LOADS + STORES + SHIFTS:
            self.open.append((word, self.cr))
            self.cr = None
            if behind[1:]:
                self.load(behind[1:])
            return
        parts = parts_of(behind)
        if len(parts) > 1:
            self.told(f'several operands of {word}', behind[0])
            return
        if word in LOADS:
            self.load(behind)
        elif word in STORES:
            self.store(word, behind)
        elif word in SHIFTS:
            self.same('INT', self.operand(behind).type)
        else:
            self.combine(word, behind)

    def load(self, tokens):
        operand = self.operand(tokens)
        if operand.type == BARE:
            wanted = self.wanted()
            operand.token.text = literal_as(operand.token.text, wanted)
            number = re.match(r'[+-]?\d+$', operand.token.text.replace('_', ''))
            is_short = not number or -2 ** 15 <= int(number.group()) < 2 ** 15
            operand.type = wanted or ('INT' if is_short else 'DINT')
        self.cr = operand.type

    def wanted(self):
        """The type that a number has to have which was just loaded, if what stands behind it says so."""
        for it in self.body.instructions[self.number + 1:]:
            found = None if it.label else self.wanted_by(it)
            if found != BARE or it.word in COMPARISONS:
                return None if found == BARE else found
        return None

    def wanted_by(self, it):
        """The type that an instruction wants; None where it wants none, BARE where that's as of the next one."""
        unit = self.names.function(it.word)
        if it.word in CONDITIONAL or it.word in ('S', 'R', 'SEL'):
            return 'BOOL'
        if it.word in OF_ONE:
            return OF_ONE[it.word][0]
        if unit:
            return next((one.elementary() for one in unit.variables if one.section == 'VAR_INPUT'), None)
        if it.word in ('ST', 'STN', 'LIMIT', *LOGIC, *ARITHMETIC, *COMPARISONS):
            found = self.type_of((parts_of([one for one in it.tokens[1:] if one.text != '(']) or [[]])[0])
            return found if found == BARE or found in ELEMENTARY else None
        return 'INT' if it.word == 'MUX' else None

    def type_of(self, tokens):
        """The type of an operand, of which nothing is told and nothing changed."""
        told, texts = self.told, [(it, it.text, it.upper) for it in tokens]
        self.told = lambda *_: None
        found = self.operand(tokens).type
        self.told = told
        for token, text, upper in texts:
            token.text, token.upper = text, upper
        return found

    def store(self, word, tokens):
        operand = self.operand(tokens)
        self.write(tokens, operand)
        self.same(operand.type, self.cr)
        if word in ('S', 'R'):
            self.same('BOOL', operand.type)

    def combine(self, word, tokens):
        operand = self.operand(tokens, self.cr)
        self.same(self.cr, operand.type, tokens[0] if tokens else None)
        if word in COMPARISONS:
            self.cr = 'BOOL'
        elif self.cr is None and operand.type != BARE:
            self.cr = operand.type

    # ---- calls

    def call(self, behind):
        self.conditional()
        if not behind or behind[0].kind != 'word':
            self.told('a call of no instance')
            return
        texts = [it.text for it in behind]
        if texts[1:2] == ['.']:
            self.told(f'a call of an action, or of an instance in another one: {self.as_written(behind[:3])}', behind[0])
            return
        block = self.names.block_of(self.body.unit, behind[0], self.told)
        if texts[1:2] not in ([], ['(']) or texts[1:] and texts[-1] != ')':
            self.told("a call that can't be read")
        elif block:
            given = [self.argument(block, it) for it in parts_of(behind[2:-1])]
            missing = [] if isinstance(block, str) else [it.name for it in block.variables
                                                         if it.section == 'VAR_IN_OUT' and it.key() not in given]
            for name in missing:
                self.told(f'no argument for the VAR_IN_OUT {name}', behind[0])
            more = self.names.hand_on(self.body.unit, block, behind[0], self.told)
            if more and behind[1:]:
                behind[-1].text = f'{", " if behind[3:] else ""}{", ".join(more)})'
            elif more:
                behind[0].text += f'({", ".join(more)})'
        self.cr = self.cr if isinstance(block, str) else None

    def argument(self, block, tokens):
        """Takes an argument of a call, and has its name."""
        texts = [it.text for it in tokens]
        if len(tokens) < 3 or tokens[0].kind != 'word' or texts[1] not in (':=', '=>'):
            self.told('an argument without its name, or with nothing given', tokens[0] if tokens else None)
            return None
        field, given = self.field_of(block, tokens[0]), tokens[2:]
        operand = self.operand(given, field.type)
        is_output = field.unwritable == 'an output'
        if field.type and is_output != (texts[1] == '=>'):
            self.told(f'an argument that goes the other way: {texts[0]}', tokens[0])
        if is_output or self.is_in_out(block, tokens[0]):
            self.write(given, operand)
        self.same(field.type, operand.type, given[0])
        return tokens[0].upper

    @staticmethod
    def is_in_out(block, field):
        return not isinstance(block, str) and any(it.key() == field.upper and it.section == 'VAR_IN_OUT'
                                                  for it in block.variables)


def parts_of(tokens):
    """What stands between commas, of none but commas outside of parentheses."""
    parts, depth = [[]], 0
    for token in tokens:
        depth += (token.text == '(') - (token.text == ')')
        if token.text == ',' and not depth:
            parts.append([])
        else:
            parts[-1].append(token)
    return parts if tokens else []

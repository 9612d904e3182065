"""Texts of units by calling: an instance is an object, a call runs the body of its block to the end, and a function has
variables for one call. Nothing is expanded.

It is an independent reading, in Python, of docs/LANGUAGE.md: nothing proves it, and `plc` doesn't use it.
`tools/try/try-units` compares its answers with those of `plc`. Texts are taken as good ones, whose faults are none of its
business; the budget of a scan isn't counted, and a stop has no position."""
import re

from values import Stop, combined, first_value, literal, moved_bits, negated, of_one_input, pattern_of, real_of, shown
from values import signed

TOKEN = re.compile(r'''\(\*.*?\*\) | [ \t\r]+
    | (?P<end>\n)
    | (?P<literal>(?:[A-Za-z_]\w*\#|[+-]?\d)[\w.\#+-]*)
    | (?P<place>%[\w.]+)
    | (?P<word>[A-Za-z_]\w*)
    | (?P<sign>:=|=>|&N?(?!\w)|[:,;().])''', re.S | re.X)
SECTIONS = ('VAR', 'VAR_INPUT', 'VAR_OUTPUT', 'VAR_IN_OUT')
QUALIFIERS = ('CONSTANT', 'RETAIN', 'NON_RETAIN')
# the inputs and the outputs of the standard blocks
STANDARD = {'SR': (['S1', 'R'], ['Q1']), 'RS': (['S', 'R1'], ['Q1']),
            'R_TRIG': (['CLK'], ['Q']), 'F_TRIG': (['CLK'], ['Q']),
            'CTU': (['CU', 'R', 'PV'], ['Q', 'CV']), 'CTD': (['CD', 'LD', 'PV'], ['Q', 'CV']),
            'CTUD': (['CU', 'CD', 'R', 'LD', 'PV'], ['QU', 'QD', 'CV']),
            'TP': (['IN', 'PT'], ['Q', 'ET']), 'TON': (['IN', 'PT'], ['Q', 'ET']), 'TOF': (['IN', 'PT'], ['Q', 'ET'])}
FIELD_TYPES = {'PT': 'TIME', 'ET': 'TIME', 'PV': 'INT', 'CV': 'INT'}  # all others are BOOL


# ---- what a text says

class Variable:
    def __init__(self, name, section, qualifier, type_, place, first):
        self.name, self.type, self.place, self.first = name, type_, place, first
        self.section = 'CONSTANT' if qualifier == 'CONSTANT' else section
        self.retained = qualifier == 'RETAIN'


class Line:
    """An operator without its letters, what those say, and what stands behind it."""

    def __init__(self, tokens):
        word = tokens[0][1]
        self.negates = word in ('LDN', 'STN', 'ANDN', 'ORN', 'XORN', '&N')
        self.operator = 'AND' if word[0] == '&' else word[:-1] if self.negates else word
        self.condition = None
        if word[:3] in ('JMP', 'CAL', 'RET') and word[3:] in ('', 'C', 'CN'):
            self.operator, self.condition = word[:3], {'': None, 'C': True, 'CN': False}[word[3:]]
        rest = tokens[1:]
        self.opens = rest[:1] == [('sign', '(')]
        self.target = rest[0][1] if self.operator in ('JMP', 'CAL') else ''
        parts = [[]]
        for token in rest[2:-1] if self.operator == 'CAL' else rest[self.opens:]:
            parts.append([]) if token[1] == ',' else parts[-1].append(token)
        parts = [it for it in parts if it]
        # an argument: its field, := or =>, and what is given
        self.arguments = [(it[0][1], it[1][1], operand(it[2:])) for it in parts] if self.operator == 'CAL' else []
        self.operands = [operand(it) for it in parts] if self.operator not in ('CAL', 'JMP') else []


def operand(tokens):
    """A literal, a place, a name, or a field: how it's found is told by its first item."""
    kind, text = tokens[0]
    if kind == 'literal' or text in ('TRUE', 'FALSE'):
        return 'literal', literal(text)
    if kind == 'place':
        return 'place', text
    return ('field', text, tokens[2][1]) if len(tokens) > 2 else ('name', text)


class Unit:
    def __init__(self, kind, name):
        self.kind, self.name, self.variables, self.lines, self.labels = kind, name, [], [], {}

    def inputs(self):
        return [it for it in self.variables if it.section == 'VAR_INPUT']


class Reader:
    """Goes over the tokens of a text of units."""

    def __init__(self, text):
        found = (it for it in TOKEN.finditer(text) if it.lastgroup)
        self.tokens = [(it.lastgroup, it.group().upper()) for it in found] + [('none', '')]
        self.at = 0

    def text(self):
        return self.tokens[self.at][1]

    def next(self):
        self.at += 1
        return self.tokens[self.at - 1][1]

    def past_ends(self):
        while self.tokens[self.at][0] == 'end':
            self.at += 1
        return self.text()

    def units(self):
        units = []
        while self.past_ends():
            units.append(self.unit())
        return units

    def unit(self):
        unit = Unit(self.next(), self.next())
        if unit.kind == 'FUNCTION':
            self.past_ends(), self.next(), self.past_ends()
            unit.variables.append(Variable(unit.name, 'VAR', '', self.next(), None, None))
        while self.past_ends() in SECTIONS:
            self.section(unit)
        while self.past_ends() != 'END_' + unit.kind:
            self.line(unit)
        self.next()
        return unit

    def section(self, unit):
        section = self.next()
        qualifier = self.next() if self.past_ends() in QUALIFIERS else ''
        while self.past_ends() != 'END_VAR':
            self.declaration(unit, section, qualifier)
        self.next()

    def declaration(self, unit, section, qualifier):
        parts = []
        while self.text() != ';':
            parts += [self.text()] if self.past_ends() != ';' else []
            self.next()
        self.next()
        first = literal(parts[-1]) if ':=' in parts else None
        colon = parts.index(':')
        place = parts[colon - 1] if 'AT' in parts[:colon] else None
        names = parts[:1] if place else parts[:colon:2]
        unit.variables += [Variable(it, section, qualifier, parts[colon + 1], place, first) for it in names]

    def line(self, unit):
        tokens, is_open = [], False
        while self.tokens[self.at][0] != 'end' or is_open:
            if self.tokens[self.at][0] != 'end':
                tokens.append(self.tokens[self.at])
            if any(it[1] in ('CAL', 'CALC', 'CALCN') for it in tokens):
                is_open = any(it[1] == '(' for it in tokens) and tokens[-1][1] != ')'
            self.at += 1
        if [it[1] for it in tokens[1:2]] == [':']:
            unit.labels[tokens[0][1]] = len(unit.lines)
            tokens = tokens[2:]
        if tokens:
            unit.lines.append(Line(tokens))


# ---- what holds values

class Cell:
    def __init__(self, type_, value):
        self.type, self.value = type_, value

    def get(self):
        return self.value

    def put(self, value):
        self.value = value


class Place:
    """A bit, a word, or two words, the upper half first."""

    def __init__(self, plant, place, type_=None):
        area, size, self.number, bit = re.fullmatch(r'%([IQM])([XWD]?)([\d_]+)\.?([\d_]*)', place).groups()
        self.number = int(self.number) * 8 + int(bit) if size in ('', 'X') else int(self.number)
        self.type = type_ or {'W': 'INT', 'D': 'DINT'}.get(size, 'BOOL')
        self.is_double = size == 'D'
        self.cells = plant.bits[area] if size in ('', 'X') else plant.words[area]

    def get(self):
        value = self.cells[self.number]
        if not self.is_double:
            return value % 2 ** 16 if self.type == 'WORD' else value
        pattern = value % 2 ** 16 << 16 | self.cells[self.number + 1] % 2 ** 16
        return real_of(pattern) if self.type == 'REAL' else pattern if self.type == 'DWORD' else signed(pattern, 32)

    def put(self, value):
        if self.is_double:
            pattern = pattern_of(value) if self.type == 'REAL' else value
            self.cells[self.number], self.cells[self.number + 1] = signed(pattern >> 16, 16), signed(pattern, 16)
        else:
            self.cells[self.number] = value if self.type == 'BOOL' else signed(value, 16)


class Standard:
    """An instance of a standard block: its fields, and what it remembers beside them."""

    def __init__(self, kind):
        self.kind, self.memory = kind, {'LAST': [False, False], 'START': None, 'M': False}
        self.names = {it: Cell(FIELD_TYPES.get(it, 'BOOL'), first_value(FIELD_TYPES.get(it, 'BOOL')))
                      for side in STANDARD[kind] for it in side}

    def get(self):
        return {**self.memory, 'names': {name: it.value for name, it in self.names.items()}}

    def put(self, state):
        self.memory = {name: it for name, it in state.items() if name != 'names'}
        for name, value in state['names'].items():
            self.names[name].value = value

    def call(self, now):
        values = {name: it.value for name, it in self.names.items()}
        if self.kind in ('SR', 'RS'):
            given = {'Q1': values['S1'] or not values['R'] and values['Q1']} if self.kind == 'SR' else \
                {'Q1': not values['R1'] and (values['S'] or values['Q1'])}
        elif self.kind in ('R_TRIG', 'F_TRIG'):
            clock = values['CLK'] == (self.kind == 'R_TRIG')
            given = {'Q': clock and not self.memory['M']}
            self.memory['M'] = clock
        else:
            given = self.counted(values) if 'PV' in values else self.timed(values['IN'], max(values['PT'], 0), now)
        for name, value in given.items():
            self.names[name].value = value

    def counted(self, values):
        """R, then LD, then the edges of CU and CD."""
        inputs = [values.get('CU', False), values.get('CD', False)]
        up, down = (it and not last for it, last in zip(inputs, self.memory['LAST']))
        self.memory['LAST'] = inputs
        count = 0 if values.get('R') else values['PV'] if values.get('LD') else \
            max(min(values['CV'] + up - down, 32767), -32768)
        full, empty = count >= values['PV'], count <= 0
        return {'CV': count, **{'CTU': {'Q': full}, 'CTD': {'Q': empty}, 'CTUD': {'QU': full, 'QD': empty}}[self.kind]}

    def timed(self, given, preset, now):
        """START is the moment at which the timer began to run, and None while it rests."""
        last, start = self.memory['LAST'][0], self.memory['START']
        self.memory['LAST'] = [given, False]
        if self.kind == 'TON':
            start = (start if last else now) if given else None
        elif self.kind == 'TOF':
            start = None if given else now if last else start
        elif start is None:
            start = now if given and not last else None
        elif now - start >= preset and not given:
            start = None
        self.memory['START'] = start
        if start is None:
            return {'Q': self.kind == 'TOF' and given, 'ET': 0}
        passed = min(max(now - start, 0), preset)
        return {'Q': passed >= preset if self.kind == 'TON' else passed < preset, 'ET': passed}


class Instance:
    """A unit's own variables and instances by their names. That of a VAR_IN_OUT is what the call gives."""

    def __init__(self, plant, unit):
        self.unit = unit
        self.names = {it.name: plant.made(it) for it in unit.variables if it.section != 'VAR_IN_OUT'}


# ---- a body that runs

class Frame:
    def __init__(self, plant, instance):
        self.plant, self.instance = plant, instance
        self.result, self.kept, self.at = None, [], 0

    def holder(self, operand_):
        """What an operand is: a literal, or what holds its value."""
        kind, *names = operand_
        if kind == 'literal':
            return Cell(*names[0])
        if kind == 'place':
            return Place(self.plant, names[0])
        thing = self.instance.names[names[0]]
        return thing if kind == 'name' else thing.names[names[1]]

    def value(self, operand_, wanted=None):
        """An operand's value; a bare number has the type that is wanted, else INT, or DINT where it doesn't fit."""
        holder = self.holder(operand_)
        value = holder.get()
        if holder.type is not None:
            return holder.type, value
        type_ = wanted or ('INT' if -2 ** 15 <= value < 2 ** 15 else 'DINT')
        return type_, bool(value) if type_ == 'BOOL' else value

    def run(self):
        unit = self.instance.unit
        while self.at < len(unit.lines):
            line, self.at = unit.lines[self.at], self.at + 1
            if line.condition is not None and self.result[1] != line.condition:
                continue
            if line.operator == 'RET':
                return
            self.perform(line)

    def perform(self, line):
        if line.operator == 'JMP':
            self.at = self.instance.unit.labels[line.target]
        elif line.operator == 'CAL':
            self.call(line, self.instance.names[line.target])
        elif line.operator in ('ST', 'S', 'R'):
            self.store(line)
        elif line.operator == 'LD':
            value = self.value(line.operands[0])
            self.result = negated(value) if line.negates else value
        elif line.operator == ')':
            operator, negates, left = self.kept.pop()
            self.result = combined(operator, left, negated(self.result) if negates else self.result)
        elif line.opens:
            self.kept.append((line.operator, line.negates, self.result))
            self.result = self.value(line.operands[0]) if line.operands else None
        else:
            self.result = self.given(line)

    def store(self, line):
        holder = self.holder(line.operands[0])
        if line.operator == 'ST':
            holder.put((negated(self.result) if line.negates else self.result)[1])
        elif self.result[1]:
            holder.put(line.operator == 'S')

    def given(self, line):
        """The current result behind an operator or a function."""
        operator, operands, result = line.operator, line.operands, self.result
        if operator in self.plant.units:
            return self.applied(self.plant.units[operator], operands)
        if operator == 'SEL':
            return self.value(operands[result[1]], self.type_of(operands))
        if operator == 'MUX':
            return self.value(operands[result[1] if 0 <= result[1] < len(operands) else -1], self.type_of(operands))
        if operator == 'LIMIT':
            least = combined('MAX', result, self.value(operands[0], result[0]))
            return combined('MIN', least, self.value(operands[1], result[0]))
        if operator in ('SHL', 'SHR', 'ROL', 'ROR'):
            return result[0], moved_bits(operator, *result, self.value(operands[0])[1])
        if not operands:
            return of_one_input(operator, result)
        value = self.value(operands[0], result[0])
        return combined(operator, result, negated(value) if line.negates else value)

    def type_of(self, operands):
        """The type of the first that has one."""
        return next((it.type for it in map(self.holder, operands) if it.type), 'INT')

    def applied(self, unit, operands):
        """A function: the current result is its first input, and its variables are new ones."""
        instance = Instance(self.plant, unit)
        for variable, operand_ in zip(unit.inputs()[1:], operands):
            instance.names[variable.name].put(self.value(operand_, variable.type)[1])
        instance.names[unit.inputs()[0].name].put(self.result[1])
        Frame(self.plant, instance).run()
        return instance.names[unit.name].type, instance.names[unit.name].get()

    def call(self, line, called):
        """Inputs as written, then the body, then outputs as written."""
        sections = {it.name: it.section for it in called.unit.variables} if isinstance(called, Instance) else {}
        for field, sign, operand_ in line.arguments:
            if sections.get(field) == 'VAR_IN_OUT':
                called.names[field] = self.holder(operand_)
            elif sign == ':=':
                called.names[field].put(self.value(operand_, called.names[field].type)[1])
        if isinstance(called, Instance):
            Frame(self.plant, called).run()
            self.result = None
        else:
            called.call(self.plant.now)
        for field, sign, operand_ in line.arguments:
            if sign == '=>':
                self.holder(operand_).put(called.names[field].get())


# ---- a plant

class Plant:
    """A program that answers commands as `plc run` does."""

    def __init__(self, text):
        units = Reader(text).units()
        self.units, self.program = {it.name: it for it in units}, units[-1]
        self.count, self.now = 0, 0
        self.begin()

    def begin(self):
        """A cold start: the count of scans and the moment go on."""
        self.bits, self.words = {it: [False] * 512 for it in 'IQM'}, {it: [0] * 64 for it in 'IQM'}
        self.stopped = None
        self.main = Instance(self, self.program)

    def made(self, variable):
        """What a variable is when it begins: an instance, a place, or a cell with its first value."""
        if variable.type in STANDARD:
            return Standard(variable.type)
        if variable.type in self.units:
            return Instance(self, self.units[variable.type])
        value = first_value(variable.type) if variable.first is None else variable.first[1]
        value = bool(value) if variable.type == 'BOOL' else value
        if not variable.place:
            return Cell(variable.type, value)
        place = Place(self, variable.place, variable.type)
        if variable.first is not None:
            place.put(value)
        return place

    def retained(self, instance, is_all=False):
        """What a warm start keeps, in the order of declarations."""
        for variable in instance.unit.variables:
            thing, is_kept = instance.names.get(variable.name), is_all or variable.retained
            if isinstance(thing, Instance):
                yield from self.retained(thing, is_kept)
            elif is_kept and variable.section not in ('VAR_IN_OUT', 'CONSTANT'):
                yield thing

    def begin_warm(self):
        values = [it.get() for it in self.retained(self.main)]
        self.begin()
        for thing, value in zip(self.retained(self.main), values):
            thing.put(value)

    def scan(self, bits, words, moment):
        if self.stopped:
            return self.stopped
        self.count, self.now = self.count + 1, max(self.now, moment)
        self.bits['I'][:], self.words['I'][:] = [it in bits for it in range(512)], [0] * 64
        for number, word in words:
            self.words['I'][number] = word
        try:
            Frame(self, self.main).run()
        except Stop as stop:
            self.stopped = f'stopped {stop}'
            return self.stopped
        return f'outputs {self.count}' + \
            ''.join(f' QX{number // 8}.{number % 8}' for number, bit in enumerate(self.bits['Q']) if bit) + \
            ''.join(f' QW{number}={word}' for number, word in enumerate(self.words['Q']) if word)

    def read(self, name):
        """A variable or a field by its whole name, those inside of instances too."""
        thing = self.main
        for part in name.upper().split('.'):
            thing = thing.names[part]
        return f'value {shown(thing.type, thing.get())}'

    def answer(self, command):
        """The line that `plc run` prints for a command; without a stop's position, and of a REAL the pattern."""
        if command in ('reset', 'warm'):
            self.begin() if command == 'reset' else self.begin_warm()
            return 'done'
        if 'read' in command:
            return self.read(command['read'])
        return self.scan(set(command['scan']['ix']), command['scan']['iw'], command['scan']['moment'])

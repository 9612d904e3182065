"""Texts of units at random, which have no fault: functions and blocks of a few types that use those above them in every
way that the language has, with one name in many units. `tools/try/try-units --random N` takes them."""

NAMES = ['A', 'B', 'C', 'E', 'G', 'H', 'X', 'Y', 'V', 'W', 'K', 'M', 'P', 'U', 'LAST', 'COUNT', 'ON', 'ALPHA', 'BETA', 'GAMMA',
         'DELTA']
UNITS = ['ALPHA', 'BETA', 'GAMMA', 'DELTA', 'EPSILON', 'ZETA', 'ETA', 'THETA']
TYPES = ['BOOL', 'BOOL', 'INT', 'INT', 'INT', 'DINT', 'TIME', 'REAL', 'WORD']
STANDARD = {'TON': [('IN', 'BOOL'), ('PT', 'TIME')], 'TP': [('IN', 'BOOL'), ('PT', 'TIME')], 'R_TRIG': [('CLK', 'BOOL')],
            'CTU': [('CU', 'BOOL'), ('R', 'BOOL'), ('PV', 'INT')]}
OUTPUTS = {'TON': [('Q', 'BOOL'), ('ET', 'TIME')], 'TP': [('Q', 'BOOL'), ('ET', 'TIME')], 'R_TRIG': [('Q', 'BOOL')],
           'CTU': [('Q', 'BOOL'), ('CV', 'INT')]}
PLACES = {'BOOL': ['%{0}X0.0', '%{0}X0.1', '%{0}X3.7'], 'INT': ['%{0}W0', '%{0}W1', '%{0}W5'], 'DINT': ['%{0}D2', '%{0}D6']}


def takes_numbers(type_):
    """Whether a bare number may go into it."""
    return type_ not in ('REAL', 'TIME')


class Unit:
    """What who uses a unit has to know: its fields by their sections."""

    def __init__(self, kind, name, result=None):
        self.kind, self.name, self.result = kind, name, result
        self.fields = {'VAR_INPUT': [], 'VAR_OUTPUT': [], 'VAR_IN_OUT': [], 'VAR': [], 'VAR CONSTANT': []}

    def of(self, *sections):
        return [it for section in sections for it in self.fields[section]]


class Writer:
    """Writes one unit: readable and writable are its operands, each with a type."""

    def __init__(self, rng, unit, above):
        self.rng, self.unit, self.above, self.lines, self.labels = rng, unit, above, [], 0
        self.instances = []  # a name, and its unit or the kind of a standard block
        result = [(unit.name, unit.result)] if unit.kind == 'FUNCTION' else []
        self.readable = unit.of('VAR_INPUT', 'VAR_OUTPUT', 'VAR_IN_OUT', 'VAR', 'VAR CONSTANT') + result
        self.writable = unit.of('VAR_OUTPUT', 'VAR_IN_OUT', 'VAR') + 3 * result

    def literal(self, type_, is_bare=False):
        number = self.rng.choice([0, 1, 2, 3, 7, 50, 900])
        if type_ == 'BOOL':
            return self.rng.choice(['TRUE', 'FALSE'] + ['1', '0'] * is_bare)
        if type_ == 'TIME':
            return self.rng.choice(['T#0s', 'T#100ms', 'T#1.5s', 'T#-20ms'])
        if type_ == 'REAL':
            return self.rng.choice(['0.0', '1.5', '-0.25', 'REAL#1E3', '0.1'])
        if is_bare and self.rng.random() < 0.6:
            return str(number)
        return f'WORD#16#{number:X}' if type_ == 'WORD' else f'{type_}#{number * self.rng.choice([1, -1])}'

    def operand(self, type_, is_bare=False):
        """One that can be read."""
        found = [name for name, its in self.readable if its == type_]
        at = self.rng.random()
        if type_ in PLACES and at < (0.3 if self.unit.kind == 'PROGRAM' else 0.1):
            return self.rng.choice(PLACES[type_]).format(self.rng.choice('IIIQM'))
        if found and at < 0.9:
            return self.rng.choice(found)
        return self.literal(type_, is_bare)

    def target(self, type_):
        """One that can be written, or None."""
        found = [name for name, its in self.writable if its == type_]
        if type_ in PLACES and self.rng.random() < 0.15:
            return self.rng.choice(PLACES[type_]).format(self.rng.choice('QM'))
        return self.rng.choice(found) if found else None

    # ---- lines that leave a value of a type

    def put(self, *words):
        self.lines.append('  ' + ' '.join(words))

    def load(self, type_):
        self.put('LD', self.operand(type_))
        if type_ in ('INT', 'DINT'):
            self.put('MOD', '1000')
        elif type_ == 'REAL':
            self.put('MIN', '1.0E4')
            self.put('MAX', '-1.0E4')

    def value(self, type_, is_inner=False):
        self.load(type_)
        for _ in range(self.rng.randrange(3)):
            self.change(type_, is_inner)

    def change(self, type_, is_inner):
        """A line or two that make another value of the type of the current result."""
        at = self.rng.random()
        if not is_inner and at < 0.35:
            return self.choose(type_)
        operators = {'BOOL': ['AND', 'OR', 'XOR', 'ANDN', 'ORN'], 'WORD': ['AND', 'OR', 'XOR', 'XORN'],
                     'TIME': ['MIN', 'MAX'], 'REAL': ['MIN', 'MAX']}.get(type_, ['ADD', 'SUB', 'MIN', 'MAX'])
        operator = self.rng.choice(operators)
        if at > 0.85 and not is_inner:
            self.put(operator + '(')
            self.value(type_, True)
            self.put(')')
        elif type_ in ('INT', 'DINT') and operator in ('ADD', 'SUB'):
            self.put(operator, self.rng.choice(['1', '7', '300']))
            self.put('MOD', '1000')
        else:
            self.put(operator, self.operand(type_, takes_numbers(type_)))
        return None

    def choose(self, type_):
        """LIMIT, SEL, MUX, or a function of which the first input and the result are of the type."""
        functions = [it for it in self.above
                     if it.kind == 'FUNCTION' and it.result == type_ == it.fields['VAR_INPUT'][0][1]]
        if functions and self.rng.random() < 0.6:
            return self.use(self.rng.choice(functions))
        if type_ in ('INT', 'DINT', 'TIME', 'REAL') and self.rng.random() < 0.4:
            return self.put('LIMIT', self.operand(type_) + ',', self.operand(type_))
        kind = self.rng.choice(['BOOL', 'INT'])
        self.load(kind)
        values = [self.operand(type_) for _ in range(2 if kind == 'BOOL' else self.rng.randrange(2, 6))]
        return self.put('SEL' if kind == 'BOOL' else 'MUX', ', '.join(values))

    def use(self, function):
        others = [self.operand(its, takes_numbers(its)) for _, its in function.fields['VAR_INPUT'][1:]]
        return self.put(function.name, ', '.join(others))

    # ---- statements

    def statement(self):
        at = self.rng.random()
        if self.instances and at < 0.35:
            return self.call(*self.rng.choice(self.instances))
        if at < 0.45:
            return self.skip()
        if at < 0.5 and self.unit.kind != 'PROGRAM':
            self.value('BOOL')
            return self.put(self.rng.choice(['RETC', 'RETCN']))
        functions = [it for it in self.above if it.kind == 'FUNCTION']
        if functions and at < 0.6:
            function = self.rng.choice(functions)
            self.value(function.fields['VAR_INPUT'][0][1])
            self.use(function)
            return self.store(function.result)
        type_ = self.rng.choice(TYPES)
        self.value(type_)
        return self.store(type_)

    def store(self, type_):
        target = self.target(type_)
        if target:
            self.put(self.rng.choice(['ST', 'ST', 'STN', 'S', 'R']) if type_ == 'BOOL' else 'ST', target)

    def skip(self):
        """A jump over a statement or two."""
        self.labels += 1
        label = f'L{self.labels}'
        self.value('BOOL')
        self.put(self.rng.choice(['JMPC', 'JMPCN']), label)
        for _ in range(self.rng.randrange(1, 3)):
            self.statement()
        self.lines.append(f'{label}:')

    def call(self, name, unit):
        is_own = isinstance(unit, Unit)
        inputs = unit.fields['VAR_INPUT'] if is_own else STANDARD[unit]
        given = [(field, ':=', self.operand(its, takes_numbers(its))) for field, its in inputs if self.rng.random() < 0.6]
        for field, its in unit.fields['VAR_IN_OUT'] if is_own else []:
            target = self.target(its)
            if target is None:
                return
            given.append((field, ':=', target))
        for field, its in unit.fields['VAR_OUTPUT'] if is_own else OUTPUTS[unit]:
            target = self.target(its)
            if target and self.rng.random() < 0.5:
                given.append((field, '=>', target))
        self.rng.shuffle(given)
        operator = self.rng.choice(['CAL', 'CAL', 'CALC', 'CALCN'])
        if operator != 'CAL':
            self.value('BOOL')
        self.put(operator, f'{name}(' + ', '.join(' '.join(it) for it in given) + ')')

    def show(self):
        """What can be read, at outputs."""
        for number, (name, type_) in enumerate(self.readable[:16]):
            place = {'BOOL': f'%QX{number}.5', 'INT': f'%QW{20 + number}', 'DINT': f'%QD{36 + number // 2 * 2}'}.get(type_)
            if place:
                self.put('LD', name)
                self.put('ST', place)


def declared(rng, unit, names, section, most):
    """The lines of a section, whose variables the unit has from now on."""
    fields = [(names.pop(), rng.choice(TYPES)) for _ in range(rng.randrange(most + 1)) if names]
    unit.fields[section] += fields
    may_stay = section in ('VAR', 'VAR_INPUT', 'VAR_OUTPUT') and unit.kind != 'FUNCTION'
    writer = Writer(rng, Unit('', ''), [])
    said = []
    for name, type_ in fields:
        has_value = section == 'VAR CONSTANT' or section != 'VAR_IN_OUT' and rng.random() < 0.4
        said.append(f'{name} : {type_}' + (f' := {writer.literal(type_, takes_numbers(type_))}' if has_value else ''))
    words = section + (' RETAIN' if may_stay and rng.random() < 0.3 else '')
    return [f'  {words} ' + ' '.join(it + ';' for it in said) + ' END_VAR'] if said else []


def with_instances(rng, unit, names, above):
    """The lines of a unit's instances, and these."""
    blocks = [it for it in above if it.kind == 'FUNCTION_BLOCK']
    kinds = [rng.choice(blocks) for _ in range(rng.randrange(1, 4)) if blocks]
    kinds += [rng.choice(list(STANDARD)) for _ in range(rng.randrange(3))]
    found = [(names.pop(), it) for it in kinds if len(names) > 1]
    said = [f'{name} : {it.name if isinstance(it, Unit) else it};' for name, it in found]
    return [f'  VAR{rng.choice(["", "", " RETAIN"])} ' + ' '.join(said) + ' END_VAR'] if said else [], found


def unit_text(rng, kind, name, above):
    """A unit and its lines."""
    taken = {it.name for it in above} | {name}
    names = [it for it in NAMES if it not in taken]
    rng.shuffle(names)
    unit = Unit(kind, name, rng.choice(TYPES) if kind == 'FUNCTION' else None)
    lines = [f'{kind} {name}' + (f' : {unit.result}' if unit.result else '')]
    if kind == 'FUNCTION':
        unit.fields['VAR_INPUT'].append((names.pop(), rng.choice([unit.result, rng.choice(TYPES)])))
        lines.append(f'  VAR_INPUT {unit.fields["VAR_INPUT"][0][0]} : {unit.fields["VAR_INPUT"][0][1]}; END_VAR')
    if kind != 'PROGRAM':
        lines += declared(rng, unit, names, 'VAR_INPUT', 3)
    if kind == 'FUNCTION_BLOCK':
        lines += declared(rng, unit, names, 'VAR_OUTPUT', 3) + declared(rng, unit, names, 'VAR_IN_OUT', 2)
    lines += declared(rng, unit, names, 'VAR', 5) + declared(rng, unit, names, 'VAR CONSTANT', 2)
    said, instances = with_instances(rng, unit, names, above) if kind != 'FUNCTION' else ([], [])
    writer = Writer(rng, unit, above)
    writer.instances = instances
    for instance, its in instances:
        is_own = isinstance(its, Unit)
        inputs, outputs = (its.of('VAR_INPUT'), its.of('VAR_OUTPUT')) if is_own else (STANDARD[its], OUTPUTS[its])
        writer.readable = writer.readable + [(f'{instance}.{field}', type_) for field, type_ in inputs + outputs]
        writer.writable = writer.writable + [(f'{instance}.{field}', type_) for field, type_ in inputs]
    for _ in range(rng.randrange(8, 20) if kind == 'PROGRAM' else rng.randrange(2, 9)):
        writer.statement()
    for instance, its in instances:
        writer.call(instance, its)
    if kind == 'PROGRAM':
        writer.show()
    return unit, lines + said + writer.lines + [f'END_{kind}', '']


def random_text(rng):
    above, lines = [], []
    for name in rng.sample(UNITS, rng.randrange(1, 7)):
        unit, said = unit_text(rng, rng.choice(['FUNCTION', 'FUNCTION_BLOCK', 'FUNCTION_BLOCK']), name, above)
        above.append(unit)
        lines += said
    return '\n'.join(lines + unit_text(rng, 'PROGRAM', 'MAIN', above)[1]) + '\n'

"""What a file has, whichever format it's of: units, global variables, and what runs."""
import re

ELEMENTARY = {'BOOL', 'INT', 'DINT', 'LINT', 'TIME', 'REAL', 'WORD', 'DWORD'}
# the fields of the standard blocks, the inputs first; those of no other type are BOOL
STANDARD = {'SR': (['S1', 'R'], ['Q1']), 'RS': (['S', 'R1'], ['Q1']), 'R_TRIG': (['CLK'], ['Q']),
            'F_TRIG': (['CLK'], ['Q']), 'CTU': (['CU', 'R', 'PV'], ['Q', 'CV']), 'CTD': (['CD', 'LD', 'PV'], ['Q', 'CV']),
            'CTUD': (['CU', 'CD', 'R', 'LD', 'PV'], ['QU', 'QD', 'CV']), 'TP': (['IN', 'PT'], ['Q', 'ET']),
            'TON': (['IN', 'PT'], ['Q', 'ET']), 'TOF': (['IN', 'PT'], ['Q', 'ET'])}
FIELD_TYPES = {'PT': 'TIME', 'ET': 'TIME', 'PV': 'INT', 'CV': 'INT'}
# what CODESYS calls some of these fields
OTHER_FIELDS = {'SET1': 'S1', 'RESET': 'R', 'SET': 'S', 'RESET1': 'R1', 'LOAD': 'LD'}
OPERATORS = set('''LD LDN ST STN S R NOT AND ANDN OR ORN XOR XORN ADD SUB MUL DIV MOD GT GE EQ NE LE LT JMP JMPC JMPCN
    CAL CALC CALCN RET RETC RETCN INT_TO_DINT DINT_TO_INT'''.split())
# with the words that may be names, but not everywhere
RESERVED = OPERATORS | set(STANDARD) | set('''BOOL INT DINT TIME PROGRAM END_PROGRAM VAR END_VAR AT TRUE FALSE
    CONSTANT RETAIN NON_RETAIN'''.split())
# what the name of a unit can't be beside those
TAKEN = ELEMENTARY | set('''MIN MAX SHL SHR ROL ROR LIMIT SEL MUX DINT_TO_LINT LINT_TO_DINT INT_TO_REAL DINT_TO_REAL
    LINT_TO_REAL TIME_TO_REAL REAL_TO_INT REAL_TO_DINT REAL_TO_LINT REAL_TO_TIME TRUNC ABS SQRT TIME_TO_DINT DINT_TO_TIME
    WORD_TO_INT INT_TO_WORD DWORD_TO_DINT DINT_TO_DWORD WORD_TO_DWORD DWORD_TO_WORD MOVE'''.split())
LONGEST_NAME = 32


def elementary(name):
    """A type's name in upper case; None where it's no elementary one of this language."""
    return name.upper() if name and name.upper() in ELEMENTARY else None


class Variable:
    """A declaration of one name. What its type is where that's none of this language is said by `odd`."""

    def __init__(self, name, at, section, qualifiers):
        self.name, self.at, self.section, self.qualifiers = name, at, section, qualifiers
        self.type = self.place = self.first = None
        self.odd = self.comment = self.above = ''

    def key(self):
        return self.name.upper()

    def elementary(self):
        """Its type, where that is one here that isn't a block."""
        return elementary(self.type)

    def is_constant(self):
        return 'CONSTANT' in self.qualifiers


class Unit:
    """A program organisation unit: its head, its variables and the text of its body."""

    def __init__(self, kind, name, at):
        self.kind, self.name, self.at = kind, name, at
        self.result, self.result_odd, self.comment = None, '', ''
        self.variables, self.body, self.nests = [], None, False
        self.told = []  # the place, the variable or '', and what it is

    def key(self):
        return self.name.upper()

    def tell(self, at, what, name=''):
        self.told.append((at, name, what))


class Project:
    """All units of a file, its global variables, and the programs that its tasks run, each with the task's interval."""

    def __init__(self):
        self.units, self.globals, self.types, self.runs = {}, {}, {}, []
        self.told = []

    def add(self, unit):
        if unit.key() in self.units:
            self.units[unit.key()].tell(unit.at, f'a second unit of the name {unit.name}')
        else:
            self.units[unit.key()] = unit

    def add_global(self, variable):
        if variable.key() in self.globals:
            self.told.append((variable.at, '', f'a second global variable of the name {variable.name}'))
        self.globals[variable.key()] = variable


def fault_of_name(name):
    """Why a name can't be one here; '' if it can."""
    if not re.fullmatch(r'[A-Za-z_][A-Za-z0-9_]*', name):
        return f'a name that has other characters than letters, digits and underscores: {name}'
    if '__' in name or name.endswith('_'):
        return f'a name with two underscores side by side, or one at its end: {name}'
    if len(name) > LONGEST_NAME:
        return f'a name of more than {LONGEST_NAME} characters: {name}'
    return f'a reserved name: {name}' if name.upper() in RESERVED else ''

"""From what a file has to a text of units: which program, what it uses, in which order, and how it's written."""
import re

from .bodies import BARE, Body, Judge, Operand, literal_as, literal_of
from .places import NATURAL, TYPES
from .project import ELEMENTARY, STANDARD, TAKEN, Variable, elementary, fault_of_name

MOST_NESTED = 16
# before a program alone, since a text that begins with PROGRAM is one of another kind
EMPTY_UNIT = ['FUNCTION_BLOCK OF_UNITS   (* it has nothing: with it this is a text of units *)', 'END_FUNCTION_BLOCK', '']
SECTION_OF = {'FUNCTION': ('VAR_INPUT', 'VAR', 'VAR_EXTERNAL'), 'PROGRAM': ('VAR', 'VAR_EXTERNAL'),
              'FUNCTION_BLOCK': ('VAR_INPUT', 'VAR_OUTPUT', 'VAR_IN_OUT', 'VAR', 'VAR_EXTERNAL')}


class Names:
    """What the names of a unit stand for. Global variables that the program is to declare are in `taken`; constants that
    a unit is to have are in `constants`; those that a block is handed by each call, and hands on, are in `handed`."""

    def __init__(self, project, program, places):
        self.project, self.program, self.places = project, program, places
        self.taken, self.constants, self.handed = {}, {}, {}
        self.own = {id(it): {one.key(): one for one in reversed(it.variables) if one.section != 'VAR_EXTERNAL'}
                    for it in project.units.values()}

    def function(self, word):
        unit = self.project.units.get(word)
        return unit if unit and unit.kind == 'FUNCTION' else None

    def found(self, unit, token, told):
        """The variable that a name is in a unit, and whether it's a global one."""
        own = self.own[id(unit)].get(token.upper)
        variable = own or self.project.globals.get(token.upper)
        if variable:
            return variable, own is None
        if token.upper in self.project.units:
            told(f'the name of a unit in place of a variable or an instance: {token.text}', token)
        else:
            told(f"a name that isn't declared in the file: {token.text}", token)
        return None, False

    def operand(self, unit, token, told):
        if unit.kind == 'FUNCTION' and token.upper == unit.key():
            return Operand(elementary(unit.result))
        variable, is_global = self.found(unit, token, told)
        if not variable:
            return Operand(None)
        kind = variable.type and variable.type.upper()
        if kind in STANDARD or kind in self.project.units:
            told(f'an instance as an operand: {token.text}', token)
            return Operand(None)
        if is_global:
            self.take(unit, variable, token, told)
        elif variable.place and unit.kind != 'PROGRAM':
            self.by_place(variable, token, told)
        return Operand(variable.elementary(), self.unwritable(variable), token)

    @staticmethod
    def unwritable(variable):
        if variable.is_constant():
            return 'a constant'
        if (variable.place or '').upper().startswith('%I'):
            return 'an input'
        return 'an input of the unit itself' if variable.section == 'VAR_INPUT' else ''

    def take(self, unit, variable, token, told):
        """A global variable stands in the program. Elsewhere its place does, if its type follows from that; a constant is
        one of the unit, and a block has all others as VAR_IN_OUT."""
        if variable.is_constant():
            self.constants.setdefault(id(unit), {})[variable.key()] = variable
            return
        self.taken[variable.key()] = variable
        place = variable.place and self.places.place(variable.place, lambda what: None)
        if unit is self.program:
            return
        if place and variable.elementary() == NATURAL[place[1]]:
            token.text = place[0]
        elif unit.kind == 'FUNCTION':
            told(f'a global variable in a function: {token.text}', token)
        else:
            self.handed.setdefault(id(unit), {})[variable.key()] = variable

    def hand_on(self, unit, block, token, told):
        """The global variables that a unit hands to a block by a call, as arguments."""
        for key, variable in self.handed.get(id(block), {}).items():
            if key in self.own[id(unit)]:
                told(f'a variable of the name of a global one that {block.name} uses: {variable.name}', token)
            elif unit is self.program:
                self.taken[key] = variable
            else:
                self.handed.setdefault(id(unit), {})[key] = variable
        return [f'{it.name} := {it.name}' for it in self.handed.get(id(block), {}).values()]

    def by_place(self, variable, token, told):
        found = self.places.place(variable.place, lambda what: None)
        if found and variable.elementary() != NATURAL[found[1]]:
            told(f"{variable.type} at a place, in a unit that isn't the program: {token.text}", token)
        elif found:
            token.text = found[0]

    def is_own(self, unit, token):
        """Whether a name is an instance of a block of the file."""
        variable, _ = self.found(unit, token, lambda *_: None)
        return variable is not None and (variable.type or '').upper() in self.project.units

    def block_of(self, unit, token, told):
        """The block of an instance: a name of a standard one, or a unit."""
        variable, is_global = self.found(unit, token, told)
        kind = variable.type.upper() if variable and variable.type else None
        block = kind if kind in STANDARD else self.project.units.get(kind)
        if not variable or not kind:
            return None
        if not block or not isinstance(block, str) and block.kind != 'FUNCTION_BLOCK':
            told(f'no instance of a block: {token.text}', token)
            return None
        if is_global and unit is not self.program:
            told(f'a global instance in a block or a function: {token.text}', token)
        elif is_global:
            self.taken[variable.key()] = variable
        return block


class Import:
    """Makes the text of units of a project; what isn't taken goes to `told`."""

    def __init__(self, project, places, told):
        self.project, self.places, self.told = project, places, told
        self.order, self.bodies, self.notes = [], {}, []
        self.main, self.callers = None, {}

    def program(self, name):
        """The program: the one of that name, else the one that runs, else the only one that no other one calls."""
        programs = [it for it in self.project.units.values() if it.kind == 'PROGRAM']
        if name is None:
            runs = {it.upper() for it, _ in self.project.runs}
            programs = [it for it in programs if it.key() in runs] or programs
            called = {token.upper for it in programs for token in Body(it).called()}
            programs = [it for it in programs if it.key() not in called] or programs
        else:
            programs = [it for it in programs if it.key() == name.upper()]
        if len(programs) == 1:
            return programs[0]
        if name is not None or not programs:
            self.told.add((1, 1), '', f'no program {name}' if name else 'no program')
        for it in programs:
            self.told.add(it.at, it.name, 'one of several programs: --program says which')
        return None

    def used_by(self, unit):
        """The units that one uses, in the order of the file."""
        if unit.key() not in self.bodies:
            self.bodies[unit.key()] = Body(unit)
            self.make_blocks(unit)
        body = self.bodies[unit.key()]
        functions = {it for it in body.words() if it in self.project.units and self.project.units[it].kind == 'FUNCTION'}
        types = {(it.type or '').upper() for it in unit.variables}
        if unit.kind == 'PROGRAM':
            types |= {(it.type or '').upper() for key, it in self.project.globals.items() if key in body.mentioned()}
        return [it for key, it in self.project.units.items() if key in functions | types]

    def make_blocks(self, unit):
        """Makes each program that a unit calls a block, of which the unit has the one instance."""
        own = {it.key() for it in unit.variables}
        for token in self.bodies[unit.key()].called():
            called = self.project.units.get(token.upper)
            is_program = called and called.kind == 'PROGRAM' and called is not self.main
            if token.upper in own or not is_program and self.callers.get(token.upper) is not unit:
                continue
            if is_program:
                called.kind, self.callers[token.upper] = 'FUNCTION_BLOCK', unit
                instance = Variable(f'{called.name}_1', called.at, 'VAR', set())
                instance.type = called.name
                unit.variables.append(instance)
            token.text = f'{called.name}_1'
            token.upper = token.text.upper()

    def put_in_order(self, unit, above):
        """Puts a unit below those that it uses."""
        if unit in self.order:
            return
        if unit in above:
            others = ''.join(f', by {it.name}' for it in above[above.index(unit) + 1:])
            self.told.add(unit.at, unit.name, f'a unit that uses itself{others}')
            return
        if len(above) == MOST_NESTED:
            self.told.add(unit.at, unit.name, f'more than {MOST_NESTED} units in each other')
            return
        for it in self.used_by(unit):
            self.put_in_order(it, [*above, unit])
        if unit not in self.order:
            self.order.append(unit)

    def text(self, name, head):
        """The text, of the program of that name or of the only one, below a comment; '' where something was told."""
        for at, where, what in self.project.told:
            self.told.add(at, where, what)
        program = self.program(name)
        if not program:
            return ''
        self.main = program
        self.put_in_order(program, [])
        self.names = Names(self.project, program, self.places)
        for unit in self.order:
            self.judge(unit)
        for unit in self.order:
            taken = [*self.names.constants.get(id(unit), {}).values(), *(self.names.taken.values() if unit is program else [])]
            for variable in taken:
                self.judge_variable(unit, variable, variable.key() in self.names.own[id(unit)])
        self.judge_places(program)
        self.note(program)
        if self.told.found:
            return ''
        empty = [] if len(self.order) > 1 else EMPTY_UNIT
        lines = [f'(* {head} *)', '', *empty]
        for unit in self.order:
            lines += [*self.written(unit), '']
        return '\n'.join(lines[:-1]) + '\n'

    def note(self, program):
        used = {it.key() for it in self.order}
        for unit in self.project.units.values():
            if unit.key() not in used:
                self.notes.append(f"{unit.name} is left out: {program.name} doesn't use it")
        for name, interval in self.project.runs:
            if name.upper() == program.key() and interval:
                self.notes.append(f'{program.name} runs each {interval}: that is --period of plc serve, or period of a group')

    # ---- judged

    def judge(self, unit):
        for at, name, what in unit.told:
            self.told.add(at, f'{unit.name}, {name}' if name else unit.name, what)
        fault = fault_of_name(unit.name) or (f'a name that a type or an operator has: {unit.name}'
                                             if unit.key() in TAKEN else '')
        if fault:
            self.told.add(unit.at, unit.name, fault)
        if unit.kind == 'FUNCTION':
            self.judge_function(unit)
        seen = {unit.key()} if unit.kind == 'FUNCTION' else set()
        for variable in unit.variables:
            self.judge_variable(unit, variable, variable.key() in seen)
            seen.add(variable.key())
        body = self.bodies[unit.key()]
        other = body.other_language()
        if other:
            self.told.add(unit.body.at(other[0].start), unit.name, other[1])
        elif unit.body:
            def tell(at, where, what):
                self.told.add(at, f'{unit.name}, {where}', what)
            Judge(body, self.names, self.places, tell).judge()

    def judge_function(self, unit):
        if unit.result_odd or not elementary(unit.result):
            self.told.add(unit.at, unit.name, f'a function of the type {unit.result or unit.result_odd or "none"}')
        if not any(it.section == 'VAR_INPUT' for it in unit.variables):
            self.told.add(unit.at, unit.name, 'a function without an input')

    def judge_variable(self, unit, variable, is_again):
        where = f'{unit.name}, {variable.name}'

        def told(what):
            self.told.add(variable.at, where, what)
        fault = fault_of_name(variable.name)
        above = [it.key() for it in self.order[:self.order.index(unit)]]
        if variable.section == 'VAR_EXTERNAL':
            self.judge_external(variable, told)
            return
        if fault:
            told(fault)
        if is_again:
            told('a name that stands twice')
        elif variable.key() in above:
            told('the name of a unit')
        if variable.section not in SECTION_OF[unit.kind] + ('VAR_GLOBAL',):
            told(f'{variable.section} of a {unit.kind}')
        if 'PERSISTENT' in variable.qualifiers or 'NONPERSISTENT' in variable.qualifiers:
            told('PERSISTENT')
        if 'RETAIN' in variable.qualifiers and (unit.kind == 'FUNCTION' or variable.section == 'VAR_IN_OUT'
                                                or variable.is_constant()):
            told(f'RETAIN of a {"constant" if variable.is_constant() else unit.kind}')
        self.judge_type(unit, variable, told)

    def judge_external(self, variable, told):
        other = self.project.globals.get(variable.key())
        if not other:
            told("VAR_EXTERNAL of a global variable that isn't in the file")
        elif (other.type or '').upper() != (variable.type or '').upper():
            told(f'VAR_EXTERNAL of another type than the global variable: {other.type}')

    def judge_type(self, unit, variable, told):
        kind = (variable.type or '').upper()
        is_instance = kind in STANDARD or kind in self.project.units and self.project.units[kind].kind == 'FUNCTION_BLOCK'
        if variable.odd:
            told(variable.odd)
        elif not is_instance and kind not in ELEMENTARY:
            told(f'a type of the file that is none here: {variable.type}' if kind in self.project.types else
                 f'a type or a block that is none here, and no block of the file: {variable.type}')
        elif is_instance and (unit.kind == 'FUNCTION' or variable.section not in ('VAR', 'VAR_GLOBAL') or variable.is_constant()):
            told(f'an instance in {variable.section} of a {unit.kind}' + (' CONSTANT' if variable.is_constant() else ''))
        elif is_instance and (variable.first is not None or variable.place is not None):
            told('an instance with an initial value or a place')
        elif not is_instance:
            self.judge_value(unit, variable, kind, told)

    def judge_value(self, unit, variable, kind, told):
        """The place and the initial value of a variable of an elementary type."""
        if variable.place is not None:
            found = self.places.place(variable.place, told)
            if found and kind not in TYPES[found[1]]:
                told(f'{kind} at {variable.place}')
            if unit.kind != 'PROGRAM' and (variable.first is not None or variable.section != 'VAR'
                                           or 'RETAIN' in variable.qualifiers):
                told('a place of a block or a function, with more than a name')
            if variable.is_constant() or variable.place.upper().startswith('%I') and variable.first is not None:
                told('an initial value of an input, or a constant with a place')
        if variable.first is None:
            if variable.is_constant():
                told('a constant without a value')
            return
        if variable.section == 'VAR_IN_OUT':
            told('an initial value of a VAR_IN_OUT')
        first = self.first_value(variable.first, kind)
        if first is None:
            told(f'an initial value that is no literal of its type: {variable.first}')
        else:
            variable.first = first

    @staticmethod
    def first_value(text, kind):
        """An initial value as it's written here; None where it's none."""
        if text.upper() in ('TRUE', 'FALSE'):
            return text if kind == 'BOOL' else None
        if not re.fullmatch(r'[\w.+#-]+', text) or not re.match(r'[+-]?\d|[A-Za-z_]\w*#', text):
            return None
        written, found = literal_of(text)
        if written is None or found not in (BARE, kind) or found == BARE and kind == 'TIME':
            return None
        if found != BARE or kind not in ('REAL', 'BOOL'):
            return written
        written = literal_as(written, kind)
        return None if re.fullmatch(r'[+-]?\d+', written) or '#' in written else written

    def judge_places(self, program):
        """Two variables of the program at one place."""
        seen = {}
        for variable in [*self.own_of(program), *self.names.taken.values()]:
            found = variable.place and self.places.place(variable.place, lambda what: None)
            if found and seen.setdefault(found[0], variable) is not variable:
                self.told.add(variable.at, f'{program.name}, {variable.name}',
                              f'two names at {variable.place}: the other is {seen[found[0]].name}')

    @staticmethod
    def own_of(unit):
        return [it for it in unit.variables if it.section != 'VAR_EXTERNAL']

    # ---- written

    def written(self, unit):
        head = f'{unit.kind} {unit.name}' + (f' : {unit.result.upper()}' if unit.kind == 'FUNCTION' else '')
        lines = [*([f'(* {unit.comment} *)'] if unit.comment else []), head]
        variables = [it for it in self.own_of(unit) if not it.place or unit.kind == 'PROGRAM']
        variables += self.names.constants.get(id(unit), {}).values()
        if unit.kind == 'PROGRAM':
            variables += self.names.taken.values()
        variables += [self.in_out(it) for it in self.names.handed.get(id(unit), {}).values()]
        last = None
        for variable in variables:
            section = ' '.join(['VAR' if variable.section == 'VAR_GLOBAL' else variable.section,
                                *sorted(variable.qualifiers)])
            if section != last:
                lines += ['  END_VAR'] * (last is not None) + [f'  {section}']
            last = section
            lines += self.declaration(variable)
        lines += ['  END_VAR'] * (last is not None)
        body = self.bodies[unit.key()].written()
        return [*lines, '', *body, f'END_{unit.kind}'] if body else [*lines, f'END_{unit.kind}']

    @staticmethod
    def in_out(variable):
        """A global variable as a block has it."""
        handed = Variable(variable.name, variable.at, 'VAR_IN_OUT', set())
        handed.type = variable.type
        return handed

    def declaration(self, variable):
        place = f' AT {self.places.place(variable.place, lambda what: None)[0]}' if variable.place else ''
        first = f' := {variable.first}' if variable.first is not None else ''
        said = f'   (* {plain(variable.comment)} *)' if variable.comment else ''
        above = [f'    (* {plain(variable.above)} *)'] if variable.above else []
        kind = variable.type.upper() if variable.type.upper() in ELEMENTARY | set(STANDARD) else variable.type
        return [*above, f'    {variable.name}{place} : {kind}{first};{said}']


def plain(comment):
    return comment.replace('*)', ')').replace('(*', '(')

"""Projects in PLCopen XML (TC6, version 2.0 and 2.01)."""
import re
import xml.parsers.expat as expat

from .project import Project, Unit, Variable
from .source import Text, Unreadable

MOST_ELEMENTS = 300_000  # beside those of graphical bodies
SPACES = re.compile(r'http://www\.plcopen\.org/xml/tc6_020[01]$')
KINDS = {'function': 'FUNCTION', 'functionBlock': 'FUNCTION_BLOCK', 'program': 'PROGRAM'}
SECTIONS = {'inputVars': 'VAR_INPUT', 'outputVars': 'VAR_OUTPUT', 'inOutVars': 'VAR_IN_OUT', 'localVars': 'VAR',
            'externalVars': 'VAR_EXTERNAL'}
OTHER_SECTIONS = {'tempVars': 'VAR_TEMP', 'globalVars': 'VAR_GLOBAL', 'accessVars': 'VAR_ACCESS'}
QUALIFIERS = ('constant', 'retain', 'nonretain', 'persistent', 'nonpersistent')
ODD_TYPES = {'string': 'a string', 'wstring': 'a string', 'array': 'an array', 'struct': 'a structure', 'enum':
             'an enumeration', 'pointer': 'a pointer', 'subrangeSigned': 'a subrange', 'subrangeUnsigned': 'a subrange'}
LANGUAGES = {'ST': 'Structured Text', 'FBD': 'a function block diagram', 'LD': 'a ladder diagram',
             'SFC': 'a sequential function chart'}
BREAKS = ('p', 'br', 'div')  # of XHTML: lines of their own


class Element:
    __slots__ = ('name', 'attributes', 'at', 'inner', 'text')

    def __init__(self, name, attributes, at):
        self.name, self.attributes, self.at, self.inner, self.text = name, attributes, at, [], None

    def named(self, name):
        return [it for it in self.inner if it.name == name]

    def first(self, name):
        return next(iter(self.named(name)), None)

    def all(self):
        """This one and all that are in it, in their order."""
        left = [self]
        while left:
            element = left.pop()
            yield element
            left += reversed(element.inner)


class Tree:
    """Makes elements of what expat reads. What is in a body that isn't in IL isn't kept, nor any declaration of entities."""

    def __init__(self):
        self.parser = expat.ParserCreate(namespace_separator=' ')
        self.parser.StartElementHandler, self.parser.EndElementHandler = self.begin, self.end
        self.parser.CharacterDataHandler = self.characters
        self.parser.StartDoctypeDeclHandler = self.doctype
        self.root, self.open, self.passing, self.text, self.count = None, [], 0, None, 0

    def at(self):
        return self.parser.CurrentLineNumber, self.parser.CurrentColumnNumber + 1

    def doctype(self, *_):
        raise Unreadable(self.at(), 'a document type, which PLCopen XML has none of: entities are not read')

    def begin(self, name, attributes):
        if self.passing:
            self.passing += 1
            return
        self.count += 1
        if self.count > MOST_ELEMENTS:
            raise Unreadable(self.at(), f'more than {MOST_ELEMENTS} elements')
        element = Element(name.rpartition(' ')[2], attributes, self.at())
        if self.open:
            self.open[-1].inner.append(element)
        elif element.name != 'project' or not SPACES.match(name.rpartition(' ')[0]):
            raise Unreadable(self.at(), 'no project of PLCopen XML, version 2.0 or 2.01 of TC6')
        self.root = self.root or element
        if self.open and self.open[-1].name == 'body' and element.name in LANGUAGES:
            self.passing = 1
            return
        if element.name in ('IL', 'documentation') and self.text is None:
            self.text = element.text = Text()
        elif self.text is not None:
            self.inner(element)
        self.open.append(element)

    def inner(self, element):
        """An element within a text: blanks before the first one are layout, as those before one with a line of its own."""
        is_first = not self.text.characters().strip()
        if is_first or element.name in BREAKS:
            self.text.without_blanks()
        if not is_first and element.name in BREAKS:
            self.text.add('\n', *self.at())

    def end(self, _):
        if self.passing:
            self.passing -= 1
        elif self.open.pop().text is not None:
            self.text = None

    def characters(self, characters):
        if self.text is not None and not self.passing:
            self.text.add(characters, *self.at())


def tree_of(content):
    tree = Tree()
    try:
        tree.parser.Parse(content, True)
    except expat.ExpatError as fault:
        raise Unreadable((fault.lineno, fault.offset + 1), f'no XML: {expat.ErrorString(fault.code)}') from None
    except (LookupError, ValueError) as fault:  # an encoding that Python doesn't have, or not for this
        raise Unreadable((1, 1), f'no XML: {fault}') from None
    return tree.root


def words_of(element):
    """The text of a documentation, on one line."""
    return ' '.join(element.text.characters().split()) if element is not None and element.text else ''


def type_of(parent):
    """What a type is called, and what it is where this language can have none such."""
    element = parent.inner[0] if parent is not None and parent.inner else None
    if element is None:
        return None, 'no type'
    if element.name in ODD_TYPES:
        return None, ODD_TYPES[element.name]
    return element.attributes.get('name', '') if element.name == 'derived' else element.name, ''


def variable_of(element, section, qualifiers):
    variable = Variable(element.attributes.get('name', ''), element.at, section, qualifiers)
    variable.type, variable.odd = type_of(element.first('type'))
    variable.place = element.attributes.get('address')
    variable.comment = words_of(element.first('documentation'))
    value = element.first('initialValue')
    if value is not None and value.inner:
        simple = value.first('simpleValue')
        variable.first = simple.attributes.get('value', '') if simple is not None else value.inner[0].name
    return variable


def variables_of(group, section):
    """The variables of a list of them, which is constant or retained as a whole."""
    qualifiers = {it.upper() for it in QUALIFIERS if group.attributes.get(it) in ('true', '1')}
    qualifiers = {'NON_RETAIN' if it == 'NONRETAIN' else it for it in qualifiers}
    return [variable_of(it, section, qualifiers) for it in group.named('variable')]


def interface_of(interface, unit):
    for group in interface.inner:
        if group.name == 'returnType':
            unit.result, unit.result_odd = type_of(group)
        elif group.name in SECTIONS:
            unit.variables += variables_of(group, SECTIONS[group.name])
        elif group.name in OTHER_SECTIONS and group.inner:
            unit.tell(group.at, OTHER_SECTIONS[group.name])


def body_of(pou, unit):
    bodies = pou.named('body')
    for body in bodies[1:]:
        unit.tell(body.at, 'a second body')
    language = next((it for it in bodies[0].inner if it.name not in ('documentation', 'addData')), None) if bodies else None
    if language is None:
        unit.tell(pou.at, 'no body')
    elif language.name != 'IL':
        unit.tell(language.at, f'a body in {LANGUAGES.get(language.name, language.name)}')
    else:
        unit.body = language.text


def unit_of(pou):
    kind = KINDS.get(pou.attributes.get('pouType'))
    unit = Unit(kind or 'FUNCTION_BLOCK', pou.attributes.get('name', ''), pou.at)
    if not kind:
        unit.tell(pou.at, f'a unit of the kind {pou.attributes.get("pouType", "")}')
    interface = pou.first('interface')
    if interface is not None:
        interface_of(interface, unit)
    unit.comment = words_of(pou.first('documentation'))
    body_of(pou, unit)
    for group, what in (('actions', 'an action'), ('transitions', 'a transition')):
        for element in pou.named(group):
            for it in element.inner:
                unit.tell(it.at, f'{what}: {it.attributes.get("name", "")}')
    for data in pou.all():
        # what may be discarded by who doesn't know it is no part of the meaning
        if data.name == 'data' and data.attributes.get('handleUnknown') != 'discard':
            unit.tell(data.at, f'additional data: {data.attributes.get("name", "")}')
    return unit


def runs_of(root):
    """The programs that run, and the interval of the task of each, if it has one."""
    for element in root.all():
        if element.name in ('task', 'resource'):
            interval = element.attributes.get('interval') if element.name == 'task' else None
            for instance in element.named('pouInstance'):
                yield instance.attributes.get('typeName', ''), interval


def read(content):
    """The project in the bytes of a file."""
    root, project = tree_of(content), Project()
    inner = {id(it) for unit in root.all() if unit.name == 'pou' for it in unit.all()}
    for element in root.all():
        if element.name == 'pou':
            project.add(unit_of(element))
        elif element.name == 'dataType':
            project.types[element.attributes.get('name', '').upper()] = element.at
        elif element.name == 'globalVars' and id(element) not in inner:
            for variable in variables_of(element, 'VAR_GLOBAL'):
                project.add_global(variable)
    project.runs = list(runs_of(root))
    return project

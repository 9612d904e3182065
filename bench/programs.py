#!/usr/bin/env python3
"""programs.py NAME [--loops L]: prints one of the programs arith, logic, jumps, blocks, dints, lints, reals.

Each is made by a generator of fixed seed, and none stops: sums are kept small by MOD. The body runs L times in each scan.
"""
import argparse
import random

PERIOD = 7  # ms from one scan to the next
COMPARISONS = ['GT', 'GE', 'LT', 'LE', 'EQ', 'NE']


def program(declarations, body, loops, opening='VAR'):
    if loops > 1:
        declarations = declarations + ['ROUNDS : INT;']
        again = ['LD ROUNDS', 'ADD 1', 'ST ROUNDS', f'LT {loops}', 'JMPC AGAIN']
        body = ['LD 0', 'ST ROUNDS', 'AGAIN:'] + body + again
    return '\n'.join([opening, *declarations, 'END_VAR', *body]) + '\n'


def one_of(rng, letter, count):
    return f'{letter}{rng.randrange(count)}'


def location(rng, area, bytes_):
    return f'%{area}X{rng.randrange(bytes_)}.{rng.randrange(8)}'


def int_sum(rng):
    """At most (96 + 96 + 50) * 7 + 96 = 1790."""
    return [f'LD {one_of(rng, "I", 16)}', f'ADD {one_of(rng, "I", 16)}', f'SUB {rng.randrange(1, 50)}',
            f'MUL {rng.choice([-7, -3, 2, 5, 7])}', f'ADD {one_of(rng, "I", 16)}', f'MOD {rng.randrange(30, 97)}',
            f'ST {one_of(rng, "I", 16)}']


def dint_sum(rng):
    """Below 2 * 10^7."""
    return [f'LD {one_of(rng, "D", 16)}', f'MUL DINT#{rng.choice([-31, 17, 101])}', f'SUB {one_of(rng, "D", 16)}',
            f'DIV DINT#{rng.choice([-3, 2, 7])}', f'ADD {one_of(rng, "D", 16)}', f'MOD DINT#{rng.randrange(7000, 9999)}',
            f'ST {one_of(rng, "D", 16)}']


def input_sum(rng):
    return [f'LD %IW{rng.randrange(8)}', 'DIV 3', f'MOD {rng.randrange(20, 97)}', f'ADD {one_of(rng, "I", 16)}', 'MOD 97',
            'INT_TO_DINT', f'ADD {one_of(rng, "D", 16)}', 'MOD DINT#97', 'DINT_TO_INT', f'ST {one_of(rng, "I", 16)}']


def time_comparison(rng):
    return [f'LD {one_of(rng, "U", 8)}', f'SUB {one_of(rng, "U", 8)}', f'ADD T#{rng.randrange(500)}ms',
            f'{rng.choice(COMPARISONS)} T#{rng.randrange(500)}ms', f'ST {one_of(rng, "B", 8)}']


def int_comparison(rng):
    return [f'LD {one_of(rng, "I", 16)}', f'{rng.choice(COMPARISONS)} {one_of(rng, "I", 16)}', f'ST {one_of(rng, "B", 8)}']


def arith(loops=1, count=1000):
    """INT, DINT and TIME: sums, comparisons, conversions."""
    rng = random.Random(1)
    declarations = ([f'I{k} : INT := {k * 3 - 20};' for k in range(16)] + [f'D{k} : DINT := {k * 1000 - 7000};' for k in range(16)]
                    + [f'U{k} : TIME := T#{k * 13}ms;' for k in range(8)] + [f'B{k} : BOOL;' for k in range(8)])
    outputs = [it for k in range(4) for it in (f'LD I{k}', f'ST %QW{k}', f'LD B{k}', f'ST %QX0.{k}')]
    body = []
    while len(body) < count - len(outputs):
        body += rng.choice([int_sum, dint_sum, input_sum, time_comparison, int_comparison])(rng)
    return program(declarations, body + outputs, loops)


def logic_line(rng):
    def operand():
        return rng.choice([one_of(rng, 'B', 64), location(rng, 'I', 64), location(rng, 'M', 8)])

    line = [f'{rng.choice(["LD", "LD", "LDN"])} {operand()}']
    for _ in range(rng.randrange(1, 7)):
        operator = rng.choice(['AND', 'ANDN', 'OR', 'ORN', 'XOR', 'XORN', 'NOT', 'AND', 'OR'])
        line.append(operator if operator == 'NOT' else f'{operator} {operand()}')
    to = rng.choice([one_of(rng, 'B', 64), location(rng, 'M', 8)])
    return line + [f'{rng.choice(["ST", "ST", "STN", "S", "R"])} {to}']


def logic(loops=1, count=4000):
    """BOOL alone: inputs, outputs, memory and variables."""
    rng = random.Random(2)
    declarations = [f'B{k} : BOOL := {rng.choice(["TRUE", "FALSE"])};' for k in range(64)]
    outputs = [it for k in range(8) for it in (f'LD B{k * 7}', f'ST %QX0.{k}')]
    body = []
    while len(body) < count - len(outputs):
        body += logic_line(rng)
    return program(declarations, body + outputs, loops)


def any_bit(rng):
    return rng.choice([one_of(rng, 'B', 32), location(rng, 'I', 4)])


def nest(rng, depth):
    """A few operators, each over a bit or over a parenthesis, up to so deep."""
    lines = []
    for _ in range(rng.randrange(1, 3)):
        operator = rng.choice(['AND', 'OR', 'XOR', 'ANDN', 'ORN', 'XORN'])
        if depth == 0 or rng.random() < 0.5:
            lines.append(f'{operator} {any_bit(rng)}')
        elif rng.random() < 0.5:
            lines += [f'{operator}( {any_bit(rng)}', *nest(rng, depth - 1), ')']
        else:
            lines += [f'{operator}(', f'LD {any_bit(rng)}', *nest(rng, depth - 1), ')']
    return lines


def leap(rng, number):
    """A jump forward, with or without a condition, to a label of this number."""
    if rng.random() < 0.5:
        return [f'ST {one_of(rng, "B", 32)}', f'{rng.choice(["JMPC", "JMPCN"])} L{number}', f'LD {one_of(rng, "I", 8)}',
                f'ADD( {one_of(rng, "I", 8)}', 'MUL 3', ')', 'MOD 50', f'ST {one_of(rng, "I", 8)}',
                f'L{number}: LD {one_of(rng, "B", 32)}', f'STN {one_of(rng, "B", 32)}']
    return [f'JMP L{number}', f'L{number}: LD {one_of(rng, "B", 32)}', f'ST {one_of(rng, "B", 32)}']


def jumps(loops=1, count=2000):
    """Parentheses up to six deep and jumps forward; each label is jumped to."""
    rng = random.Random(3)
    declarations = ([f'B{k} : BOOL := {rng.choice(["TRUE", "FALSE"])};' for k in range(32)]
                    + [f'I{k} : INT := {k - 4};' for k in range(8)])
    outputs = [it for k in range(4) for it in (f'LD B{k}', f'ST %QX0.{k}', f'LD I{k}', f'ST %QW{k}')]
    body, number = [], 0
    while len(body) < count - len(outputs):
        body += [f'LD {any_bit(rng)}', *nest(rng, 6), *leap(rng, number)]
        number += 1
    return program(declarations, body + outputs, loops)


# The kinds of blocks: their inputs of type BOOL, their preset, an output.
KINDS = {'SR': ('S1 R', '', 'Q1'), 'RS': ('S R1', '', 'Q1'), 'R_TRIG': ('CLK', '', 'Q'), 'F_TRIG': ('CLK', '', 'Q'),
         'CTU': ('CU R', 'PV := {}', 'Q'), 'CTD': ('CD LD', 'PV := {}', 'Q'), 'CTUD': ('CU CD R LD', 'PV := {}', 'QU'),
         'TP': ('IN', 'PT := T#{}ms', 'Q'), 'TON': ('IN', 'PT := T#{}ms', 'Q'), 'TOF': ('IN', 'PT := T#{}ms', 'Q')}


def block_call(rng, number):
    inputs, preset, output = list(KINDS.values())[number % 10]
    arguments = [f'{field} := {any_bit(rng)}' for field in inputs.split() if rng.random() < 0.8]
    if preset:
        arguments.append(preset.format(rng.choice([2, 5, 30, 100])))
    if rng.random() < 0.6:
        arguments.append(f'{output} => {one_of(rng, "B", 32)}')
    call = f'{rng.choice(["CAL", "CAL", "CALC", "CALCN"])} F{number}({", ".join(arguments)})'
    kept = [f'ST {one_of(rng, "B", 32)}'] if rng.random() < 0.3 else []
    return [f'LD {any_bit(rng)}', call, f'AND F{number}.{output}', *kept]


def blocks(loops=1, count=1000):
    """64 instances of all ten kinds; a third of the instructions are calls."""
    rng = random.Random(4)
    declarations = ([f'F{k} : {list(KINDS)[k % 10]};' for k in range(64)] + [f'B{k} : BOOL;' for k in range(32)])
    outputs = [it for k in range(8) for it in (f'LD B{k}', f'ST %QX0.{k}')]
    outputs += ['LD F4.CV', 'ST %QW0', 'LD F6.CV', 'ST %QW1', 'LD F8.ET', 'GT T#20ms', 'ST %QX1.0']
    body = []
    while len(body) < count - len(outputs):
        body += block_call(rng, rng.randrange(64))
    return program(declarations, body + outputs, loops)


def sums(of, narrowed, loops, count=1000):
    """Sums of 16 variables of one type, below 4 * 10^6; `narrowed` makes a result that fits DINT a DINT, in one instruction."""
    rng = random.Random(5)
    declarations = [f'X{k} : {of} := {k * 1000 - 7000};' for k in range(16)]
    outputs = [it for k in range(4) for it in (f'LD X{k}', narrowed, 'DINT_TO_INT', f'ST %QW{k}')]
    body = []
    while len(body) < count - len(outputs):
        body += [f'LD {one_of(rng, "X", 16)}', f'ADD {one_of(rng, "X", 16)}', f'SUB {one_of(rng, "X", 16)}',
                 f'MUL {rng.choice([-31, 17, 101])}', f'ADD {one_of(rng, "X", 16)}', f'MOD {rng.randrange(7000, 9999)}',
                 f'ST {one_of(rng, "X", 16)}']
    return program(declarations, body + outputs, loops)


def dints(loops=1):
    """DINT alone."""
    return sums('DINT', 'SUB 0', loops)


def lints(loops=1):
    """The same sums in LINT, with the same results."""
    return sums('LINT', 'LINT_TO_DINT', loops)


def real_sum(rng):
    """At most 72, where the variables are: (72 + 72) * 0.375 + 72 is 126, half of that 63, and up to 9 is added."""
    return [f'LD {one_of(rng, "R", 16)}', f'SUB {one_of(rng, "R", 16)}', f'MUL {rng.choice(["0.25", "-0.375", "0.1"])}',
            f'ADD {one_of(rng, "R", 16)}', f'DIV {rng.choice(["3.0", "-2.5", "2.125"])}', f'ADD {rng.randrange(-90, 90) / 10}',
            f'ST {one_of(rng, "R", 16)}']


def real_comparison(rng):
    return [f'LD {one_of(rng, "R", 16)}', f'{rng.choice(COMPARISONS)} {one_of(rng, "R", 16)}', f'ST {one_of(rng, "B", 8)}']


def reals(loops=1, count=1000):
    """REAL: sums, products, quotients and comparisons; four results, times 400 and rounded, are put out."""
    rng = random.Random(6)
    declarations = [f'R{k} : REAL := {k * 1.5 - 9};' for k in range(16)] + [f'B{k} : BOOL;' for k in range(8)]
    outputs = [it for k in range(4) for it in (f'LD R{k}', 'MUL 400.0', 'REAL_TO_INT', f'ST %QW{k}', f'LD B{k}', f'ST %QX0.{k}')]
    body = []
    while len(body) < count - len(outputs):
        body += rng.choice([real_sum, real_sum, real_sum, real_comparison])(rng)
    return program(declarations, body + outputs, loops, 'VAR_GLOBAL')


PROGRAMS = {'arith': arith, 'logic': logic, 'jumps': jumps, 'blocks': blocks, 'dints': dints, 'lints': lints,
            'reals': reals}
# What the interpreter doesn't know, beside the program with as many instructions and the same answers.
TWINS = {'lints': 'dints'}


def inputs(length=64):
    """Of so many scans, used in turn: the TRUE bits, and the words with their values."""
    rng = random.Random(9)
    return [(sorted(rng.sample(range(32), 8) + rng.sample(range(32, 512), 8)), [[k, rng.randrange(-300, 300)] for k in range(8)])
            for _ in range(length)]


def plan(scans):
    """The inputs as the interpreter reads them."""
    lines = [' '.join(map(str, bits)) + ';' + ' '.join(f'{number}={value}' for number, value in words) for bits, words in scans]
    return '\n'.join([str(PERIOD), *lines]) + '\n'


def commands(scans, count):
    """The same inputs, in turn, as a file of commands for `plc run`."""
    rows = []
    for number in range(count):
        bits, words = scans[number % len(scans)]
        rows.append(f'{{"scan":{{"ix":{bits},"iw":{words},"moment":{number * PERIOD}}}}}'.replace(' ', ''))
    return '[' + ','.join(rows) + ']\n'


if __name__ == '__main__':
    parser = argparse.ArgumentParser(description=__doc__)
    parser.add_argument('name', choices=PROGRAMS)
    parser.add_argument('--loops', type=int, default=1)
    options = parser.parse_args()
    print(PROGRAMS[options.name](options.loops), end='')

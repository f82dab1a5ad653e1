#!/usr/bin/env python3
"""Prints a table of cases of the operators on fundamental types, a case a line, as scripts/run-cases.py reads it.

What an operator makes of its operands is worked out here from the rules of the standards alone (ECMA-372, 12.1, 14 and 15; C++, 4.5 to 4.12 and 5.2 to
5.17): operands below int are widened to it, two have a common type, sums, differences, products and shifts wrap, the count of a shift is taken modulo the
width, `>>` keeps the sign of a signed operand, a quotient is cut towards zero, and a number that is converted keeps its low bits. Each operator stands at
each pair of types; the values are those at the ends of the types and some in between."""
import json
import operator as operations
from collections import namedtuple
from functools import cache

Type = namedtuple('Type', 'name letter bits signed suffix')
BOOL = Type('bool', 'b', 1, False, '')
CHARACTER = Type('wchar_t', 'c', 16, False, '')
INT8 = Type('signed char', 'x', 8, True, '')
UINT8 = Type('unsigned char', 'y', 8, False, '')
INT16 = Type('short', 's', 16, True, '')
UINT16 = Type('unsigned short', 't', 16, False, '')
INT32 = Type('int', 'i', 32, True, '')
UINT32 = Type('unsigned int', 'u', 32, False, 'u')
INT64 = Type('long long', 'l', 64, True, 'll')
UINT64 = Type('unsigned long long', 'm', 64, False, 'ull')
TYPES = [BOOL, CHARACTER, INT8, UINT8, INT16, UINT16, INT32, UINT32, INT64, UINT64]

ARITHMETIC = ['+', '-', '*', '&', '|', '^']
DIVISIONS = ['/', '%']
SHIFTS = ['<<', '>>']
COMPARISONS = ['<', '<=', '>', '>=', '==', '!=']
LOGICAL = ['&&', '||']
BINARY = ARITHMETIC + DIVISIONS + SHIFTS + COMPARISONS + LOGICAL
ASSIGNED = ARITHMETIC + DIVISIONS + SHIFTS
WITHOUT_BOUND = {'+': operations.add, '-': operations.sub, '*': operations.mul, '&': operations.and_, '|': operations.or_, '^': operations.xor,
                 '<': operations.lt, '<=': operations.le, '>': operations.gt, '>=': operations.ge, '==': operations.eq, '!=': operations.ne}
BEGIN = 'using namespace System;\n'


class Thrown(Exception):
    """The exception that a division throws, by its full name."""


# What the operators mean.

def least(type):
    return -2 ** (type.bits - 1) if type.signed else 0


def greatest(type):
    return 2 ** (type.bits - type.signed) - 1


def kept(type, number):
    """The number converted to the type: its low bits; for bool whether it isn't zero (C++, 4.7 and 4.12)."""
    if type is BOOL:
        return int(number != 0)
    low = number % 2 ** type.bits
    return low - 2 ** type.bits if low > greatest(type) else low


def promoted(type):
    return INT32 if type.bits < 32 else type


@cache
def common(left, right):
    """The type in which two operands are worked on (C++, 5, 9)."""
    both = [promoted(left), promoted(right)]
    return next(type for type in [UINT64, INT64, UINT32, INT32] if type in both)


def quotient(type, left, right):
    """The quotient, cut towards zero (C++, 5.6; ECMA-335, III.3.31)."""
    if right == 0:
        raise Thrown('System.DivideByZeroException')
    if right == -1 and left == least(type):
        raise Thrown('System.ArithmeticException')
    cut = abs(left) // abs(right)
    return cut if (left < 0) == (right < 0) else -cut


def result_type(operator, left, right):
    if operator in COMPARISONS + LOGICAL:
        return BOOL
    return promoted(left) if operator in SHIFTS else common(left, right)


def result(operator, left, a, right, b):
    """The value of the operator at a number of the left type and one of the right type."""
    if operator in LOGICAL:
        return int(a != 0 and b != 0) if operator == '&&' else int(a != 0 or b != 0)
    if operator in SHIFTS:
        count = b % promoted(left).bits
        return kept(promoted(left), a * 2 ** count if operator == '<<' else a // 2 ** count)
    type = common(left, right)
    a, b = kept(type, a), kept(type, b)
    if operator in DIVISIONS:
        cut = quotient(type, a, b)
        return cut if operator == '/' else a - cut * b
    number = int(WITHOUT_BOUND[operator](a, b))
    return number if operator in COMPARISONS else kept(type, number)


def divides(left, a, right, b):
    """Whether the division of the two numbers throws nothing."""
    try:
        return quotient(common(left, right), kept(common(left, right), a), kept(common(left, right), b)) is not None
    except Thrown:
        return False


# Sources.

def values(type):
    """The numbers at the ends of the type and some in between."""
    if type is BOOL:
        return [0, 1]
    if type.signed:
        return [least(type), -1, 0, 1, 2 ** (type.bits // 2) + 3, greatest(type)]
    return [0, 1, greatest(type) // 3, greatest(type) // 2 + 1, greatest(type)]


def ends(type):
    return [0, 1] if type is BOOL else [least(type), -7, greatest(type)] if type.signed else [1, greatest(type) // 2 + 1, greatest(type)]


def counts(type):
    """Counts of shifts: within the width, past it, and negative."""
    wanted = [0, 1, 7, 31, 32, 33, 63, 64, 65, 4294967297, -1, -31, -32, -33, -63, -64, -65, least(type), greatest(type)]
    return sorted({count for count in wanted if least(type) <= count <= greatest(type)})


def written(type, number):
    """The number as a term of the type or of one that is widened to it."""
    if type is BOOL:
        return 'true' if number else 'false'
    if type.signed and type.bits > 16 and number == least(type):
        return f'{number + 1}{type.suffix} - 1'
    return f'{number}{type.suffix}'


def constant(type, number):
    """The number as a term of the very type."""
    plain = written(type, number)
    if type.bits < 32 and type is not BOOL:
        return f'({type.name}){plain}'
    return f'({plain})' if number < 0 else plain


def shown(type, number):
    return ('True' if number else 'False') if type is BOOL else str(number)


def line(term, type=None):
    """A statement that prints the value of a term as a line: a character, if the term is of that type, as its number."""
    return f'Console::WriteLine((int)({term}));' if type is CHARACTER else f'Console::WriteLine({term});'


def function(head, lines):
    return head + ' {\n' + ''.join(f'    {text}\n' for text in lines) + '}\n'


def meant(group, text, lines, status=0, note=''):
    """A case of `mean`, whose output is the lines."""
    return {'group': group, 'words': ['mean', 'x.cpp', '--turns', '0'], 'text': text, 'exit': status, 'out': ''.join(f'{each}\n' for each in lines), 'err': note}


def thrown(group, text, name):
    return meant(group, text, [], 248, f'unhandled {name}: {name}\n')


def refused(group, text, place, kind):
    return {'group': group, 'text': text, 'exit': 245, 'err': f'x.cpp:1:{place + 1}: error {kind}\n'}


# The cases.

def values_of_operators(left):
    """Each binary operator at the left type and each right type."""
    text, calls, lines = BEGIN, [], []
    for number, right in enumerate(TYPES):
        both = [(a, b) for a in values(left) for b in values(right)]
        for name, pairs, operators in [('f', both, ARITHMETIC + COMPARISONS + LOGICAL),
                                       ('d', [(a, b) for a, b in both if divides(left, a, right, b)], DIVISIONS),
                                       ('s', [(a, b) for a in values(left) for b in counts(right)], SHIFTS)]:
            text += function(f'void {name}{number}({left.name} a, {right.name} b)', [line(f'a {operator} b') for operator in operators])
            calls += [f'{name}{number}({written(left, a)}, {written(right, b)});' for a, b in pairs]
            lines += [shown(result_type(operator, left, right), result(operator, left, a, right, b)) for a, b in pairs for operator in operators]
    return meant(f'binary operators on {left.name}', text + function('int main()', calls), lines)


def labels(group, parts):
    """Constants that are labels of switches over their values, which are worked out when the source is compiled: a list of types, numbers and terms for each
    function. A label that matches prints a point."""
    text, lines = BEGIN + "void p(bool a) { Console::Write(a ? '.' : '!'); }\n", []
    for number, constants in enumerate(parts):
        switches = [f'switch ({constant(type, value)}) {{ case {term}: p(true); break; default: p(false); }}' for type, value, term in constants]
        text += function(f'void f{number}()', switches + ['Console::WriteLine();'])
        lines.append('.' * len(switches))
    return meant(group, text + function('int main()', [f'f{number}();' for number in range(len(parts))]), lines)


def constants_of_two_operands(left):
    """Each binary operator in a label, at the left type and each right type."""
    return labels(f'labels over {left.name}', [
        [(result_type(operator, left, right), result(operator, left, a, right, b), f'{constant(left, a)} {operator} {constant(right, b)}')
         for a in ends(left) for b in ends(right) for operator in BINARY if operator not in DIVISIONS or divides(left, a, right, b)] for right in TYPES])


def constants_of_one_operand():
    """Each operator of one operand and each cast in a label."""
    parts = []
    for source in TYPES:
        of = [(a, constant(source, a)) for a in values(source)]
        parts.append([(promoted(source), kept(promoted(source), value), term) for a, term in of
                      for value, term in [(-a, f'-{term}'), (~a, f'~{term}'), (a, f'+{term}')]] + [(BOOL, int(a == 0), f'!{term}') for a, term in of])
        parts.append([(target, kept(target, a), cast) for a, term in of for target in TYPES for cast in [
            f'({target.name}){term}', f'{target.name}({term})', f'static_cast<{target.name}>({term})', f'safe_cast<{target.name}>({term})']])
    return labels('labels with one operand', parts)


def types_of_operators():
    """The type of each operator, shown by the overload that takes it."""
    text = BEGIN + ''.join(f"void t({type.name} n) {{ Console::Write('{type.letter}'); }}\n" for type in TYPES)
    variables = [f'{type.name} {type.letter}0 = {written(type, 1)};' for type in TYPES] + ['']
    calls, lines = [], []

    def row(number, terms):
        nonlocal text
        text += function(f'void f{number}()', variables + [f't({term});' for term, _ in terms] + ['Console::WriteLine();'])
        calls.append(f'f{number}();')
        lines.append(''.join(type.letter for _, type in terms))
    for number, left in enumerate(TYPES):
        variables[-1] = f'{left.name} n = {written(left, 1)};'
        row(f'_{number}', [(f'{left.letter}0 {operator} {right.letter}0', result_type(operator, left, right)) for operator in BINARY for right in TYPES])
        row(f'a{number}', [(f'n {operator}= {right.letter}0', left) for operator in [''] + ASSIGNED for right in TYPES])
        row(f'c{number}', [(f'b0 ? {left.letter}0 : {right.letter}0', left if left is right else common(left, right)) for right in TYPES])
        row(f'o{number}', [(f'{sign}{left.letter}0', promoted(left)) for sign in '+-~'] + [(f'!{left.letter}0', BOOL)])
        row(f'v{number}', [(f'({left.name}){right.letter}0', left) for right in TYPES] + [(f'{left.letter}0', left), (f'({left.letter}0)', left)])
        if left is not BOOL:
            row(f'n{number}', [(term, left) for term in ['++n', '--n', 'n++', 'n--']])
    return meant('types of operators', text + function('int main()', calls), lines)


def types_of_literals():
    """The first type that holds the number, of those that its form and suffix leave (C++, 2.13.1)."""
    text = BEGIN + ''.join(f"void t({type.name} n) {{ Console::Write('{type.letter}'); }}\n" for type in TYPES)
    forms = {('', True): [INT32, INT64], ('', False): [INT32, UINT32, INT64, UINT64], ('u', True): [UINT32, UINT64], ('u', False): [UINT32, UINT64],
             ('ll', True): [INT64], ('ll', False): [INT64, UINT64], ('ull', True): [UINT64], ('ull', False): [UINT64]}
    calls, lines = [], []
    for (suffix, decimal), allowed in forms.items():
        for number in [0, 1, 2 ** 31 - 1, 2 ** 31, 2 ** 32 - 1, 2 ** 32, 2 ** 63 - 1, 2 ** 63, 2 ** 64 - 1]:
            if number > greatest(allowed[-1]):
                continue
            type = next(type for type in allowed if number <= greatest(type))
            for term in [f'{number}{suffix}'] if decimal and number else [] if decimal else [f'0x{number:X}{suffix}', f'0{number:o}{suffix}']:
                calls += [f't({term});', f'Console::WriteLine({term});']
                lines.append(f'{type.letter}{number}')
    for term, type, number in [("'a'", CHARACTER, 'a'), ("L'b'", CHARACTER, 'b'), ('true', BOOL, 'True'), ('false', BOOL, 'False'),
                               ('-2147483648', INT64, -2147483648), ('-2147483648 / -1', INT64, 2147483648), ('1LLU', UINT64, 1), ('1Ull', UINT64, 1), ('0X1fU', UINT32, 31)]:
        calls += [f't({term});', f'Console::WriteLine({term});']
        lines.append(f'{type.letter}{number}')
    return meant('types of literals', text + function('int main()', calls), lines)


def operators_of_one_operand():
    text, calls, lines = BEGIN, [], []
    for number, type in enumerate(TYPES):
        text += function(f'void f{number}({type.name} a)', [line(f'{sign}a') for sign in '+-~!'])
        for a in values(type):
            calls.append(f'f{number}({written(type, a)});')
            lines += [str(kept(promoted(type), value)) for value in [a, -a, ~a]] + [shown(BOOL, a == 0)]
    return meant('operators of one operand', text + function('int main()', calls), lines)


def counted():
    """Old and new values of ++ and --, and what the variable keeps (C++, 5.2.6 and 5.3.2)."""
    text, calls, lines = BEGIN, [], []
    for number, type in enumerate(TYPES[1:]):
        text += function(f'void f{number}({type.name} a)', [line(term, type) for term in ['a++', 'a', '++a', 'a', 'a--', 'a', '--a', 'a']])
        for a in values(type):
            calls.append(f'f{number}({written(type, a)});')
            lines += [str(kept(type, a + step)) for step in [0, 1, 2, 2, 2, 1, 0, 0]]
    return meant('++ and --', text + function('int main()', calls), lines)


def assigned(left):
    """The value of each assignment with an operator to the type, and what the variable keeps (C++, 5.17)."""
    text, calls, lines = BEGIN, [], []
    for number, right in enumerate(TYPES):
        for name, operators in [('f', ARITHMETIC + SHIFTS), ('d', DIVISIONS)]:
            statements = [statement for operator in operators for statement in ['x = a;', line(f'x {operator}= b', left), line('x', left)]]
            text += function(f'void {name}{number}({left.name} a, {right.name} b)', [f'{left.name} x;'] + statements)
            for a, b in [(a, b) for a in ends(left) for b in ends(right) if name == 'f' or divides(left, a, right, b)]:
                calls.append(f'{name}{number}({written(left, a)}, {written(right, b)});')
                lines += [shown(left, kept(left, result(operator, left, a, right, b))) for operator in operators for _ in range(2)]
    return meant(f'assignments with an operator to {left.name}', text + function('int main()', calls), lines)


def conversions():
    """Each conversion of a number: by each cast, to an argument, to a result, where a variable is initialised and where it is assigned."""
    text, calls, lines = BEGIN, [], []
    for number, target in enumerate(TYPES):
        text += f'{target.name} same{number}({target.name} a) {{ return a; }}\n'
    for number, source in enumerate(TYPES):
        statements = []
        for place, target in enumerate(TYPES):
            text += f'{target.name} result{number}_{place}({source.name} a) {{ return a; }}\n'
            statements += [f'{target.name} i{place} = a;', f'{target.name} j{place};'] + [line(term, target) for term in [
                f'i{place}', f'j{place} = a', f'({target.name})a', f'{target.name}(a)', f'static_cast<{target.name}>(a)', f'safe_cast<{target.name}>(a)',
                f'same{place}(a)', f'result{number}_{place}(a)']]
        text += function(f'void f{number}({source.name} a)', statements)
        for a in values(source):
            calls.append(f'f{number}({written(source, a)});')
            lines += [shown(target, kept(target, a)) for target in TYPES for _ in range(8)]
    return meant('conversions', text + function('int main()', calls), lines)


def truths():
    """What holds as a condition: a number that isn't zero (C++, 4.12)."""
    text, calls, lines = BEGIN, [], []
    for number, type in enumerate(TYPES):
        text += function(f'void f{number}({type.name} a)', [
            "if (a) Console::Write('i'); else Console::Write('e');", "Console::Write(a ? 'i' : 'e');", "while (a) { Console::Write('i'); break; }",
            "for (; a; ) { Console::Write('i'); break; }", "do { if (a) break; } while (a);", 'Console::Write(!a);', 'Console::Write(a && true);',
            'Console::Write(true && a);', 'Console::Write(a || false);', 'Console::WriteLine(false || a);'])
        for a in values(type) + [256] * (type.bits > 8) + [2 ** 32] * (type.bits > 32):
            calls.append(f'f{number}({written(type, a)});')
            lines.append('iiiiFalse' + 'True' * 4 if a else 'eeTrue' + 'False' * 4)
    case = meant('conditions', text + function('int main()', calls), lines)
    return {**case, 'words': ['mean', 'x.cpp', '--turns', '1']}


def all_pairs_of_bytes():
    """Each binary operator at every signed char and every unsigned char, as one number: each result is added to 31 times those before, modulo 2^32."""
    text, calls, lines = BEGIN, [], []
    for number, operator in enumerate(BINARY):
        first = 1 if operator in DIVISIONS else 0
        text += function(f'unsigned f{number}()', [
            'unsigned all = 0;', f'for (int i = -128; i < 128; i++) {{ signed char a = i; for (int j = {first}; j < 256; j++) {{ unsigned char b = j; all = all * 31 + (a {operator} b); }} }}',
            'return all;'])
        calls.append(f'Console::WriteLine(f{number}());')
        total = 0
        for a in range(-128, 128):
            for b in range(first, 256):
                total = (total * 31 + result(operator, INT8, a, UINT8, b)) % 2 ** 32
        lines.append(total)
    return {**meant('all pairs of bytes', text + function('int main()', calls), lines), 'words': ['mean', 'x.cpp', '--turns', '256']}


def all_of_sixteen_bits():
    """Each conversion of every number of 16 bits, with and without a sign, as one number."""
    text, calls, lines = BEGIN, [], []
    for number, (source, first, past) in enumerate([(INT16, -32768, 32768), (UINT16, 0, 65536)]):
        for place, target in enumerate(TYPES):
            text += function(f'unsigned long long f{number}_{place}()', [
                'unsigned long long all = 0;', f'for (int i = {first}; i < {past}; i++) {{ {source.name} a = i; {target.name} b = a; all = all * 31 + b; }}', 'return all;'])
            calls.append(f'Console::WriteLine(f{number}_{place}());')
            total = 0
            for a in range(first, past):
                total = (total * 31 + kept(target, a)) % 2 ** 64
            lines.append(total)
    return {**meant('all numbers of sixteen bits', text + function('int main()', calls), lines), 'words': ['mean', 'x.cpp', '--turns', '65536']}


def divisions_that_throw():
    """A division by zero, and one whose quotient the type doesn't hold, at each pair of types."""
    for left in TYPES:
        for right in TYPES:
            type = common(left, right)
            for operator in DIVISIONS:
                pairs = [(greatest(left), 0)]
                if left.bits == type.bits and type.signed and right.signed:
                    pairs.append((least(left), -1))
                for a, b in pairs:
                    start = f'int main() {{ {left.name} a = {written(left, a)}; {right.name} b = {written(right, b)}; '
                    try:
                        result(operator, left, a, right, b)
                    except Thrown as exception:
                        yield thrown(f'{left.name} {operator} {right.name}', start + f'a {operator} b; }}', str(exception))
                        yield thrown(f'{left.name} {operator}= {right.name}', start + f'a {operator}= b; }}', str(exception))


def operands_without_a_value():
    """A call that gives nothing is no operand (50), and nothing that could be assigned or counted (53)."""
    begin = 'void f() { } int main() { int a = 0; '
    for operator in BINARY:
        yield refused(f'void {operator}', begin + f'f() {operator} a; }}', len(begin), '50 NoConversion')
        yield refused(f'{operator} void', begin + f'a {operator} f(); }}', len(begin), '50 NoConversion')
    for operator in [''] + ASSIGNED:
        yield refused(f'{operator}= void', begin + f'a {operator}= f(); }}', len(begin), '50 NoConversion')
        yield refused(f'void {operator}=', begin + f'f() {operator}= a; }}', len(begin), '53 NotAssignable')
        yield refused(f'1 {operator}= void', begin + f'1 {operator}= f(); }}', len(begin), '53 NotAssignable')
        yield refused(f'value {operator}=', begin + f'(a + 1) {operator}= 1; }}', len(begin), '53 NotAssignable')
    for sign in '+-~!':
        yield refused(f'{sign} void', begin + f'{sign}f(); }}', len(begin), '50 NoConversion')
    for sign in ['++', '--']:
        for operand in ['f()', '1', '(a + 1)', 'a++', '(a = 1)']:
            yield refused(f'{sign} value', begin + f'{sign}{operand}; }}', len(begin), '53 NotAssignable')
            yield refused(f'value {sign}', begin + f'{operand}{sign}; }}', len(begin), '53 NotAssignable')
        truth = 'int main() { bool b = true; '
        yield refused(f'{sign} bool', truth + f'{sign}b; }}', len(truth), '50 NoConversion')
        yield refused(f'bool {sign}', truth + f'b{sign}; }}', len(truth), '50 NoConversion')
    for type in TYPES:
        for cast in [f'({type.name})f()', f'{type.name}(f())', f'static_cast<{type.name}>(f())', f'safe_cast<{type.name}>(f())']:
            yield refused(f'cast of void to {type.name}', begin + f'a = {cast}; }}', len(begin) + 4, '50 NoConversion')


def cases():
    for left in TYPES:
        yield values_of_operators(left)
        yield constants_of_two_operands(left)
        yield assigned(left)
    yield from [constants_of_one_operand(), types_of_operators(), types_of_literals(), operators_of_one_operand(), counted(), conversions(), truths(), all_pairs_of_bytes(), all_of_sixteen_bits()]
    yield from divisions_that_throw()
    yield from operands_without_a_value()


def main():
    for case in cases():
        print(json.dumps(case))


main()

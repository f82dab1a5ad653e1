#!/usr/bin/env python3
"""Writes cases/deep.jsonl: each recursive alternative of the grammar at depth 256, and at 257 with the place of the first token that shows it.

The unit has depth 1, a function 2, its block 3, a statement 4 and its expression 5. A form is an opening that is repeated, what stands in the middle
and a closing that is repeated as often. `most` is the greatest count within depth 256; `at` is the place, in the opening that is one too many, of the
token after which every source nests deeper. `middle_at` stands in its place where the token comes after all the openings. A source that isn't too deep
may be refused for its types (`refusal`, a place and a kind): where it has a name that isn't declared, or an innermost part that no operator takes."""
import json
import os

MAIN = 'int main() { '
RETURN = MAIN + 'return '
EXPRESSION_END = '; }'
UNKNOWN = '63 UnknownMember'


def form(name, before, opening, middle, closing, after, most, at=0, middle_at=None, refusal=None, innermost=None):
    def text(count):
        return before + opening * count + middle + closing * count + after
    place = len(before) + len(opening) * most + at
    if middle_at is not None:
        place = len(before) + len(opening) * (most + 1) + middle_at
    if innermost is not None:
        refusal = len(before) + len(opening) * (most - 1), innermost
    return name, text(most), refusal, text(most + 1), place


def chains():
    """Binary operators group to the left: the first operand is deepest, and the operator that is one too many shows it.
    A `>` may begin a shift, which binds more tightly than the operators before it; so what follows a `>` shows it."""
    yield form('binary >', RETURN + '1', ' > 1', '', '', EXPRESSION_END, 251, at=3)
    for operator in ['||', '&&', '|', '^', '&', '==', '!=', '<', '<=', '>=', '<<', '>>', '+', '-', '*', '/', '%']:
        yield form(f'binary {operator}', RETURN + '1', f' {operator} 1', '', '', EXPRESSION_END, 251, at=1)


def suffixes():
    for suffix in ['++', '--', '.a', '->a', '()', '[0]']:
        yield form(f'suffix {suffix}', MAIN + 'x', suffix + ' ', '', '', EXPRESSION_END, 251, refusal=(len(MAIN), UNKNOWN))


def expressions():
    yield form('parentheses', RETURN, '(', '0', ')', EXPRESSION_END, 251)
    for operator in ['!', '~', '-', '+']:
        yield form(f'unary {operator}', RETURN, operator + ' ', '0', '', EXPRESSION_END, 251)
    for operator in ['++', '--']:
        yield form(f'unary {operator}', RETURN, operator + ' ', '0', '', EXPRESSION_END, 251, innermost='53 NotAssignable')
    yield form('unary %', RETURN, '% ', '0', '', EXPRESSION_END, 251, innermost='50 NoConversion')
    yield form('cast', RETURN, '(int)', '0', '', EXPRESSION_END, 251)
    for word in ['safe_cast', 'static_cast']:
        yield form(word, RETURN, word + '<int>(', '0', ')', EXPRESSION_END, 251)
    yield form('dynamic_cast', RETURN, 'dynamic_cast<int>(', '0', ')', EXPRESSION_END, 251, innermost='50 NoConversion')
    for operator in ['=', '+=', '-=', '*=', '/=', '%=', '^=', '&=', '|=', '<<=', '>>=']:
        yield form(f'assignment {operator}', MAIN, f'x {operator} ', 'x', '', EXPRESSION_END, 251, at=2, refusal=(len(MAIN), UNKNOWN))
    yield form('condition in the last part', RETURN, '1 ? 1 : ', '0', '', EXPRESSION_END, 251, at=2)
    yield form('condition in the middle part', RETURN, '1 ? ', '1', ' : 1', EXPRESSION_END, 251, at=2)
    yield form('index in an index', MAIN, 'x[', '0', ']', EXPRESSION_END, 251, at=1, refusal=(len(MAIN), UNKNOWN))
    yield form('call in an argument', MAIN, 'f(', '', ')', EXPRESSION_END, 126, refusal=(len(MAIN), UNKNOWN))
    yield form('conversion in an argument', MAIN, 'int(', '', ')', EXPRESSION_END, 126, innermost='50 NoConversion')
    yield form('gcnew in an argument', MAIN, 'gcnew System::Object(', '', ')', EXPRESSION_END, 126)
    # array<int> takes a depth more than the braces, and shows it at its sign <
    yield form('gcnew in braces', MAIN, 'gcnew array<int>{', '', '}', EXPRESSION_END, 125, at=11)
    yield from chains()
    yield from suffixes()


def statements():
    yield form('block', 'int main() ', '{', '', '}', '', 254)
    yield form('if', MAIN, 'if (1) ', ';', '', ' }', 252)
    yield form('else', MAIN, 'if (1) ; else ', ';', '', ' }', 252)
    yield form('while', MAIN, 'while (0) ', ';', '', ' }', 252)
    yield form('do', MAIN, 'do ', ';', ' while (0);', ' }', 252)
    yield form('for', MAIN, 'for (;;) ', ';', '', ' }', 252)
    yield form('for each', MAIN, 'for each (int i in x) ', ';', '', ' }', 252)
    yield form('switch', MAIN, 'switch (0) { default: ', '', '}', ' }', 252)
    yield form('try', MAIN, 'try { ', '', '} finally { }', ' }', 126)
    yield form('catch', MAIN, 'try { } catch (...) { ', '', '}', ' }', 126)
    yield form('finally', MAIN, 'try { } finally { ', '', '}', ' }', 126)
    # a local is a statement, a node of its own and its type; `int` begins no shallower expression
    yield form('local in blocks', 'int main() ', '{', 'int i;', '}', '', 251, middle_at=0)
    # `return` alone would still fit
    yield form('return in blocks', 'int main() ', '{', 'return 0;', '}', '', 252, middle_at=7)


def types():
    yield form('namespace', '', 'namespace a { ', '', '}', ' int main() { return 0; }', 255)
    yield form('class in namespaces', '', 'namespace a { ', 'ref class C { };', '}', ' int main() { return 0; }', 253, middle_at=0)
    yield form('function in namespaces', '', 'namespace a { ', 'void f() { }', '}', ' int main() { return 0; }', 253, middle_at=0)
    yield form('type arguments', '', 'array<', 'int', '>', ' f(); int main() { return 0; }', 253, at=5)
    # whether a type is a handle shows after its arguments: the last sign ^ of all is one too many
    yield form('handles in type arguments', '', 'array<', 'int', '>^', ' f(); int main() { return 0; }', 126, middle_at=3 + 2 * 127 - 1)


def refused(place, kind):
    return {'exit': 245, 'err': f'x.cpp:1:{place + 1}: error {kind}\n'}


def lines():
    for name, fits, refusal, deep, place in [*expressions(), *statements(), *types()]:
        yield {'group': f'{name}, depth 256', 'text': fits, **(refused(*refusal) if refusal else {'exit': 0, 'err': ''})}
        yield {'group': f'{name}, depth 257', 'text': deep, **refused(place, '11 TooDeep')}


def main():
    folder = os.path.join(os.path.dirname(os.path.abspath(__file__)), '..', 'cases')
    with open(os.path.join(folder, 'deep.jsonl'), 'w', encoding='utf-8') as table:
        for line in lines():
            table.write(json.dumps(line) + '\n')


main()

#!/usr/bin/env python3
"""Runs the proved program over the tables of cases: run-cases.py PROGRAM. Ends with 0 exactly where each answer is as the tables have it.

A line of a table has a source (`text`), the words of the call (`words`, else those of `check`), and the output (`out`, else none), the line on notes (`err`)
and the exit status (`exit`) that are wanted. A folder has the words of each case (NAME.args), those of a call that goes before (NAME.first) if there is one,
the file that they name as it is (NAME.cpp) or in hexadecimal digits (NAME.hex) if there is one, the output (NAME.out), the line on notes (NAME.err) and the
exit status (NAME.exit). In the tables of the whole language, where a case wants no refusal of the lexer or the parser (kinds 1 to 15), the answer NotYet
will do, until its forms are built."""
import json
import os
import re
import subprocess
import sys
import tempfile

SCRIPTS = os.path.dirname(os.path.abspath(__file__))
CASES = os.path.join(SCRIPTS, '..', 'cases')


def answer(program, calls, content):
    """The exit status, output and notes of the last call of the program, where the bytes lie under the name in the first."""
    name = next((word for word in calls[0] if word.endswith(('.cpp', '.exe'))), 'x.cpp')
    with tempfile.TemporaryDirectory() as folder:
        if content is not None:
            with open(os.path.join(folder, name), 'wb') as file:
                file.write(content)
        for words in calls:
            ran = subprocess.run([program, *words], cwd=folder, input=b'', capture_output=True, timeout=120)
    return ran.returncode, ran.stdout.decode(), ran.stderr.decode()


def is_not_yet(wanted, got):
    """Whether the answer is NotYet where no refusal of the lexer or the parser is wanted."""
    kind = re.search(r' error (\d+) ', wanted[2])
    return (kind is None or int(kind.group(1)) > 15) and ' error 9 NotYet' in got[2]


def cases_of_lines(lines):
    for line in lines:
        case = json.loads(line)
        yield case['group'], [case.get('words', ['check', 'x.cpp'])], case['text'].encode(), (case['exit'], case.get('out', ''), case['err'])


def table_cases(name):
    with open(os.path.join(CASES, name), encoding='utf-8') as table:
        yield from cases_of_lines(table)


def printed_cases(script):
    """The cases that a script prints as a table."""
    yield from cases_of_lines(subprocess.run([sys.executable, os.path.join(SCRIPTS, script)], capture_output=True, check=True, encoding='utf-8').stdout.splitlines())


def folder_cases(name):
    folder = os.path.join(CASES, name)

    def part(case, end):
        with open(os.path.join(folder, case + end), 'rb') as file:
            return file.read()

    def content(case):
        if os.path.exists(os.path.join(folder, case + '.hex')):
            return bytes.fromhex(part(case, '.hex').decode())
        return part(case, '.cpp') if os.path.exists(os.path.join(folder, case + '.cpp')) else None
    for case in sorted(file[:-5] for file in os.listdir(folder) if file.endswith('.args')):
        calls = [part(case, end).decode().split() for end in ['.first', '.args'] if os.path.exists(os.path.join(folder, case + end))]
        yield case, calls, content(case), (int(part(case, '.exit')), part(case, '.out').decode(), part(case, '.err').decode())


def first_difference(wanted, got):
    """The number of the first line of output that differs, with both; for outputs of many lines."""
    pairs = list(zip(wanted[1].splitlines() + ['(end)'], got[1].splitlines() + ['(end)']))
    return next((f'line {number}: wanted {one!r}, got {other!r}; ' for number, (one, other) in enumerate(pairs, 1) if one != other), '')


def run(program, name, cases, all_built):
    """Prints how many cases of a table agree, and those that don't; gives whether all do. NotYet will do where not all forms of the table are built."""
    total, wrong = 0, 0
    for group, calls, content, wanted in cases:
        total += 1
        got = answer(program, calls, content)
        if got != wanted and (all_built or not is_not_yet(wanted, got)):
            wrong += 1
            ends = [(status, out[-60:], err) for status, out, err in [wanted, got]]
            print(f'{name}: {group}: {(content or b"")[-60:]!r}: {first_difference(wanted, got)}wanted {ends[0]}, got {ends[1]}')
    print(f'{name}: {total - wrong} of {total} cases agree')
    return total > 0 and wrong == 0


def main():
    program = os.path.abspath(sys.argv[1])
    whole_language = {'syntax.jsonl': table_cases('syntax.jsonl'), 'deep.jsonl': table_cases('deep.jsonl'), 'front': folder_cases('front')}
    built = {'program': folder_cases('program'), 'typing.jsonl': table_cases('typing.jsonl'), 'mean.jsonl': table_cases('mean.jsonl'), 'mean': folder_cases('mean'),
             'operator-cases.py': printed_cases('operator-cases.py')}
    agree = [run(program, name, cases, False) for name, cases in whole_language.items()] + [run(program, name, cases, True) for name, cases in built.items()]
    sys.exit(0 if all(agree) else 1)


main()

#!/usr/bin/env python3
"""row.py TITLE FOLDER=NAME=SENTENCE ..: writes a file of theorems, to standard output, that the definitions compute the outputs
of worked cases.

A folder has an input and its output. The description is read here with Python's json, so a theorem speaks of it as it is parsed;
script and output are whole texts. Where the output is a verdict, the script is a log; where it is a fault of the script, the
theorem names that fault. A sentence says what a case shows. docs/definitions.md says what the theorems are for.
"""
import json
import os
import re
import sys


def built_in(name, bounds, transitions):
    states = [{'name': s, 'bound': b} for s, b in bounds]
    return {'name': name, 'initial': 'OFFLINE', 'states': states, 'transitions': transitions.split()}


BUILT_IN = [
    built_in('MasterSlave', [('MASTER', '1'), ('SLAVE', 'R'), ('OFFLINE', '-1')],
             'MASTER>SLAVE SLAVE>MASTER OFFLINE>SLAVE SLAVE>OFFLINE OFFLINE>DROPPED'),
    built_in('OnlineOffline', [('ONLINE', 'R'), ('OFFLINE', '-1')], 'OFFLINE>ONLINE ONLINE>OFFLINE OFFLINE>DROPPED'),
    built_in('LeaderStandby', [('LEADER', '1'), ('STANDBY', 'R'), ('OFFLINE', '-1')],
             'LEADER>STANDBY STANDBY>LEADER OFFLINE>STANDBY STANDBY>OFFLINE OFFLINE>DROPPED')]
STATES = ['ERROR', 'DROPPED', 'MASTER', 'SLAVE', 'OFFLINE', 'ONLINE', 'LEADER', 'STANDBY']
DEMO = {'version': 1, 'controllers': 2, 'timeout': 30, 'instances': ['n1', 'n2', 'n3'],
        'resources': [{'name': 'db', 'model': 'OnlineOffline', 'replicas': 2, 'partitions': 2, 'mode': 'SEMI_AUTO',
                       'lists': [['n1', 'n2', 'n3'], ['n2', 'n3', 'n1']]}]}
WIDTH = 96


def listed(items):
    items = list(items)
    return '(' + ' ∷ '.join(items + ['[]']) + ')' if items else '[]'


def option(item):
    return 'None' if item is None else f'(Some {item})'


def boolean(b):
    return 'true' if b else 'false'


def quoted(text):
    return re.sub(r'\\u([0-9a-f]{4})', r'\\u{\1}', json.dumps(text, ensure_ascii=False))


def broken(lines, indent):
    """A text as pieces that are joined, each on a line of its own: those lines that were given, in order."""
    return f'\n{indent}++ '.join(f'codes {quoted(line)}' for line in lines) or '[]'


def filled(text):
    """The lines of a text, as many together as a line of the file holds."""
    pieces = []
    for line in text.splitlines(keepends=True):
        if pieces and len(quoted(pieces[-1] + line)) < WIDTH - 14:
            pieces[-1] += line
        else:
            pieces.append(line)
    return pieces


def stepwise(text):
    """The same, but each step of the script begins a piece."""
    steps = []
    for line in text.splitlines(keepends=True):
        if not steps or line.startswith('line '):
            steps.append('')
        steps[-1] += line
    return [piece for step in steps for piece in filled(step)]


def wrapped(line, indent):
    """A line of a term, broken between the items of its lists where it is too long."""
    rows, rest = [], line
    while len(rest) > 100 and ' ∷ ' in rest[len(indent) + 4:100]:
        at = rest.rindex(' ∷ ', 0, 100)
        rows.append(rest[:at])
        rest = indent + rest[at + 1:]
    return '\n'.join(rows + [rest])


class Reader:
    """Names of a description become numbers, as the program numbers them."""

    def __init__(self, text):
        self.described = DEMO if text.strip() == 'builtin demo' else json.loads(text)
        self.instances = sorted(self.described['instances'])
        self.states = list(STATES)
        self.models = [(m['name'], m) for m in BUILT_IN]
        for m in self.described.get('models', []):
            for s in m['states']:
                if s['name'] not in self.states:
                    self.states.append(s['name'])
            self.models.append((m['name'], m))
        self.resources = self.described.get('resources', [])
        self.names = []
        for r in self.resources:
            self.name(r['name'])

    def name(self, name):
        if name not in self.names:
            self.names.append(name)
        return self.names.index(name)

    def state(self, name):
        return self.states.index(name)

    def model_number(self, name):
        return [n for n, _ in self.models].index(name)

    def bound(self, text):
        return {'R': 'bounds.Replicas', 'N': 'bounds.Live', '-1': 'bounds.Free'}.get(text, f'bounds.Count {text}')

    def model(self, m):
        states = listed(f"({self.state(s['name'])}, {self.bound(s['bound'])})" for s in m['states'])
        moves = listed(self.move(*x.split('>')) for x in m['transitions'])
        return f"own_model {self.state(m['initial'])} {states} {moves}"

    def move(self, start, end):
        return f'({self.state(start)}, {self.state(end)})'

    def resource(self, r):
        shape = f"{self.name(r['name'])} {self.model_number(r['model'])} {r['replicas']}"
        if r['mode'] == 'FULL_AUTO':
            return f"taken_in_turn {shape} {r['partitions']}"
        if r['mode'] == 'SEMI_AUTO':
            return f'by_lists {shape} ' + listed(listed(str(self.instances.index(i)) for i in x) for x in r['lists'])
        entry = lambda e: f"({self.instances.index(e['instance'])}, {self.states.index(e['state'])})"
        return f'by_maps {shape} ' + listed(listed(entry(e) for e in x) for x in r['maps'])

    def rule(self, r):
        scope = 'scopes.' + r['scope'].capitalize()
        move = self.move(r['from'], r['to']) if 'from' in r else None
        return f"rule {scope} {option(move)} {r['limit']}"

    def failure(self, f):
        resource = [r['name'] for r in self.resources].index(f['resource'])
        word = 'failed_make' if 'make' in f else 'failed_run'
        return f"{word} {self.instances.index(f['instance'])} {resource} {f['part']} {f['make'] if 'make' in f else f['run']}"

    def spec(self):
        """The fields in which it differs from the bare description."""
        d, fields = self.described, []
        texts = lambda names: ' ∷ '.join([f'codes "{n}"' for n in names] + ['[]'])
        items = lambda xs: '\n      ∷ '.join(list(xs)) + ' ∷ []'
        if self.instances != ['n1', 'n2', 'n3']:
            fields.append(('instances', texts(self.instances)))
        if len(self.states) > len(STATES):
            fields.append(('states', 'built_in_states ++ ' + texts(self.states[len(STATES):])))
        if self.names:
            fields.append(('resource_names', texts(self.names)))
        if len(self.models) > len(BUILT_IN):
            fields.append(('model_names', 'built_in_names ++ ' + texts(n for n, _ in self.models[3:])))
            fields.append(('models', 'built_in ++ ' + items(self.model(m) for _, m in self.models[3:])))
        if d.get('controllers', 1) != 2:
            fields.append(('controllers', d.get('controllers', 1)))
        if d.get('timeout', 30) != 30:
            fields.append(('timeout', d['timeout']))
        for field, member, write in [('rules', 'throttles', self.rule), ('resources', 'resources', self.resource),
                                     ('failures', 'failures', self.failure)]:
            if d.get(member):
                fields.append((field, items(write(x) for x in d[member])))
        if not fields:
            return 'bare'
        rows = ''.join(f'  {k} = {v};\n' for k, v in fields).splitlines()
        return '\n'.join(['record bare {'] + [wrapped(row, ' ' * 6) for row in rows] + ['}'])


WORDS = ['built_in', 'built_in_states', 'built_in_names', 'bare', 'own_model', 'by_lists', 'by_maps', 'taken_in_turn', 'rule',
         'failed_make', 'failed_run', 'output', 'fault', 'verdict']
PRELUDE = [('[]', '[]'), ('∷', '◌∷◌'), ('++', '◌++◌'), ('None', 'None'), ('Some', 'Some')]
QUALIFIED = [('bounds', 'hx_model.specs.declared.Bound.TheVariants'),
             ('scopes', 'hx_cluster.specs.declared.description.Scope.TheVariants'),
             ('kinds', 'hx_script.specs.declared.faults.ScriptKind.TheVariants')]


def words_in(text):
    """The words of theorems, without their comments and quoted texts."""
    told = re.sub(r'"(?:[^"\\]|\\.)*"', '', re.sub(r'(?m)^--.*', '', text))
    return set(re.findall(r'[^\s(){};,]+', told))


def uses_of_terms(text):
    """The lines that import what the terms of descriptions and of faults use."""
    told = words_in(text)
    lines = [f'{module} as {name}' for name, module in QUALIFIED if any(word.startswith(name + '.') for word in told)]
    shared = [word for word in WORDS if word in told]
    lines += ['hx_rows.proofs.Fixtures.{' + ', '.join(shared) + '}'] if shared else []
    return ''.join(f'use Rattle.{line}\n' for line in lines)


def uses(text):
    """The lines that import what a file of theorems uses."""
    told = words_in(text)
    prelude = ['◌≡◌'] + [name for sign, name in PRELUDE if sign in told] + ['codes']
    lines = ['std.specs.Prelude.{' + ', '.join(prelude) + '}', 'std.specs.Fmt.{digits}', 'std.proofs.Common.{refl}',
             'hx_cluster.specs.declared.description.Spec.{Spec}']
    return ''.join(f'use Rattle.{line}\n' for line in lines) + uses_of_terms(text)


def claim(output):
    """What a theorem computes of the script or the log, and the text or the fault that it finds."""
    if output.startswith(('lawful ', 'unlawful ')):
        return 'verdict', f'codes {quoted(output)}'
    if output.startswith('script '):
        _, line, kind = output.split()
        variant = 'kinds.' + ''.join(part.capitalize() for part in kind.split('-'))
        return 'fault', f'Some (record {{ line = {line}; kind = {variant} }})'
    return 'output', broken(stepwise(output), '    ')


def read(case, name):
    with open(os.path.join(case, name), encoding='utf-8') as f:
        return f.read().replace('\r\n', '\n')


def theorem(case, name, sentence):
    raw = read(case, 'input')
    described, script = raw.split('---\n', 1) if '---\n' in raw else (raw.rsplit('---', 1)[0], '')
    word, found = claim(read(case, 'output'))
    return (f'-- {sentence}\nabbrev {name}_spec : Spec\n{name}_spec = {Reader(described).spec()}\n\n'
            f'pub {name} : {word} {name}_spec (\n    {broken(filled(script), "    ")})\n    ≡ {found}\n'
            f'unfolding digits\n{name} = refl\n')


def main():
    cases = [argument.split('=', 2) for argument in sys.argv[2:]]
    text = '\n'.join(theorem(case, name, sentence) for case, name, sentence in cases)
    print(f'-- {sys.argv[1]}\n{uses(text)}\n{text}', end='')


if __name__ == '__main__':
    main()

#!/usr/bin/env python3
"""described.py FOLDER=NAME.. or described.py TABLE: writes theorems, to standard output, of what the definitions make of
descriptions: one of each folder's description, or one of a whole table.

A folder has input and output. Its description is read here with Python's json, so the theorem speaks of the JSON value. Where
the output is a fault of the description, the theorem names that fault; else it names the description as row.py reads it. A
table has a line for each description: the kind of its first fault, the fault's path, and its JSON.
"""
import json
import os
import sys

from row import Reader, quoted, uses_of_terms

WORDS = {'null': 'null', 'true': '(boolean true)', 'false': '(boolean false)'}


def value(v):
    """A JSON value as a term. Every number that is no whole number below 2^64 stands as -1."""
    if v is None or isinstance(v, bool):
        return WORDS[json.dumps(v)]
    if isinstance(v, (int, float)):
        return f'(number (unsigned {v}))' if isinstance(v, int) and 0 <= v < 2 ** 64 else '(number (negative (negsuc 0)))'
    if isinstance(v, str):
        return f'(string {text(v)})'
    if isinstance(v, list):
        return '(array (items_of ' + listed(value(x) for x in v) + '))'
    return '(object (members_from ' + listed(f'({text(k)}, {value(x)})' for k, x in sorted(v.items(), key=lambda m: m[0].encode())) + '))'


def text(t):
    return f'(codes {quoted(t)})' if t else '[]'


def listed(items):
    return '(' + ' ∷ '.join(list(items) + ['[]']) + ')'


def kind(word):
    return 'faults.' + ''.join(part.capitalize() for part in word.split('-'))


def wanted(output, description):
    if output.startswith('description '):
        _, word, path = output.split()
        return f'Err (record {{ kind = {kind(word)}; path = codes "{path}" }})'
    return 'Ok (' + Reader(description).spec() + ')'


def read(folder, name):
    with open(os.path.join(folder, name), encoding='utf-8') as f:
        return f.read().replace('\r\n', '\n')


def of_folder(argument):
    folder, name = argument.rsplit('=', 1)
    return theorem(read(folder, 'input').split('\n---')[0], read(folder, 'output'), name)


def of_table(path):
    rows = []
    for line in read('.', path).splitlines():
        word, where, description = line.split(' ', 2)
        rows.append(f'({value(json.loads(description))}, ({kind(word)}, codes "{where}"))')
    return TABLE % '\n    ∷ '.join(rows + ['[]'])


def theorem(description, output, name):
    return (f'pub {name} : within (codes "$") (described {value(json.loads(description))})\n'
            f'    ≡ {wanted(output, description)}\nunfolding digits\n{name} = refl\n')


TABLE = '''-- each description, the kind of its first fault, and the fault's path
abbrev faulty : List (Data × (DescKind × List ℕ))
faulty =
    %s

pub each_fault : map (λ c. within (codes "$") (described c.0)) faulty ≡ map (λ c. Err (record { kind = c.1.0; path = c.1.1 })) faulty
unfolding digits
each_fault = refl
'''

HEAD = '''-- What the definitions make of the descriptions of worked cases. Written by tools/described.py.
use Rattle.std.specs.Prelude.{◌≡◌, ℕ, true, false, List, [], ◌∷◌, ◌++◌, None, Some, map, Ok, Err, negsuc, codes}
use Rattle.std.specs.Fmt.{digits}
use Rattle.std.proofs.Common.{refl}
use Rattle.serde_json.specs.Data.{Data, null, boolean, number, string, array, object, unsigned, negative, Members, no_members, member}
use Rattle.serde_json.specs.View.{items_of}
use Rattle.hx_forms.specs.declared.faults.DescKind.{DescKind}
use Rattle.hx_forms.specs.declared.faults.DescKind.TheVariants as faults
use Rattle.hx_forms.specs.Found.{Found, within}
use Rattle.hx_desc.specs.Description.{described}
%s
abbrev members_from : List (List ℕ × Data) → Members
members_from [] = no_members
members_from (m ∷ ms) = member m.0 m.1 (members_from ms)
'''


def main():
    text = '\n'.join(map(of_folder, sys.argv[1:])) if '=' in sys.argv[1] else of_table(sys.argv[1])
    print(HEAD % uses_of_terms(text))
    print(text, end='')


if __name__ == '__main__':
    main()

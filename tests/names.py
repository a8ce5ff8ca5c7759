#!/usr/bin/env python3
"""Prints each definition of crates/*/specs whose name a library module has too, of those modules that definitions or contracts
cite: tests/names.py. A module has what it defines and what it passes on. What is built into the prover, or made of a library's
types, has no file: of it, the names that are cited count."""
import re
import subprocess
from pathlib import Path

from sources import code, root

kit = Path(subprocess.run(['rt', 'doc'], capture_output=True, text=True, check=True).stdout.strip()).parent / 'rattle'
# Where the modules of the program logic stand, and those of the crates of the kit: Rattle.NAME.specs.M.
places = {'mathlib': kit / 'antt/port/mathlib/src', 'lib': kit / 'logic/Lib'}
crates = re.findall(r'(?m)^(\w+)(?: staticlib)?:', (root / 'crates.txt').read_text())
public = re.compile(r'^\s*(?:\w+ )*pub (?:\w+ )*?(?:data |record )?([^\s(){}:.,;]+)(?=[ \n])', re.M)
passed_on = re.compile(r'^pub use [\w.]+\.\{([^}]*)\}', re.M)
cited = re.compile(r'^(?:pub )?(?:ghost )?use ([\w.]+)\.\{([^}]*)\}', re.M)


def defined(path):
    """The names that a file makes public."""
    return {name for name in public.findall(code(path)) if name not in ('mod', 'use')}


def listed(names, word):
    """The names of a `use` list: what is cited (word 0), or what that is called from there on (word -1)."""
    return {name.split()[word] for name in names.split(',') if name.strip()}


def file_of(module):
    """The file of a library's module; nothing where it has none."""
    first, *rest = module.split('.')
    place = places.get(first)
    if first == 'Rattle' and len(rest) > 2:
        place, rest = kit / rest[0], rest[1:]
    file = place.joinpath(*rest).with_suffix('.antt') if place else None
    return file if file and file.is_file() else None


library = {}
for path in [*root.glob('crates/*/specs/**/*.antt'), *root.glob('crates/*/src/**/*.rt')]:
    for module, names in cited.findall(code(path)):
        if re.match(r'Rattle\.(\w+)\.', module + '.') and module.split('.')[1] in crates:
            continue
        file = file_of(module)
        given = listed(names, 0)
        if file:
            given = defined(file).union(*(listed(more, -1) for more in passed_on.findall(code(file))))
        for name in given:
            library[name] = module

for path in sorted(root.glob('crates/*/specs/**/*.antt')):
    for name in sorted(defined(path) & library.keys()):
        print(f'{path.relative_to(root)}: {name} is also of {library[name]}')
if 'Rattle.std.specs.Prelude' not in library.values():
    print('no definition or contract cites the library, as far as can be read here')

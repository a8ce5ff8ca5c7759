#!/usr/bin/env python3
"""Prints each line of Rattle or antt that is over 128 characters: tests/wide.py. A list of what to unfold can't be broken,
and rt fmt keeps an attribute that holds one on its line."""
from sources import root, written

for path in written("*.rt", "*.antt"):
    for number, line in enumerate(path.read_text().splitlines(), 1):
        if len(line) > 128 and not line.lstrip().startswith(('unfolding ', '#[tactic(auto, unfolding(')):
            print(f'{path.relative_to(root)}:{number}: {len(line)}')

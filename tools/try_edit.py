#!/usr/bin/env python3
"""Tries one must-fail edit: try_edit.py CRATE LABEL, at the root of the repository.

Applies the edit, runs `rt check` in the crate, prints its first errors and takes the edit back. (`rt must-fail CRATE` tries all edits of the crate.)
The first error has to be a fact that no longer holds; where it says that a name is gone, the edit only made the proof unfit and shows nothing.
"""
import re, subprocess, sys

if len(sys.argv) != 3:
    sys.exit(__doc__)
crate, label = sys.argv[1:]
edit = open(f'crates/{crate}/must-fail/{label}.edit').read()
name = re.search(r'^file: (.*)$', edit, re.M).group(1)
path = f'crates/{crate}/{name}'
text = edited = open(path).read()
for old, new in re.findall(r'^old: (.*)\nnew: (.*)$', edit, re.M):
    if edited.count(old) != 1:
        sys.exit(f'{crate}/{label}: the line {old.strip()} occurs {edited.count(old)} times')
    edited = edited.replace(old, new)
open(path, 'w').write(edited)
try:
    ran = subprocess.run(['rt', 'check'], cwd=f'crates/{crate}', capture_output=True, text=True)
finally:
    open(path, 'w').write(text)
lines = [l for l in (ran.stdout + ran.stderr).split('\n') if 'note:' not in l and not l.startswith('so far:')]
errors = [l for l in lines if 'error' in l or 'unsolved' in l or 'not proved' in l or 'no proof' in l]
print(f'{crate}/{label}: ' + ('NOT REFUSED' if ran.returncode == 0 else 'refused'))
for line in errors[:5]:
    print('    ' + line[:300])

#!/usr/bin/env python3
"""plan_calls.py DIR: the stored test of the program plan_calls, from cases of the oracle.

DIR holds NNNN.calls and NNNN.results as `oracle --tickets 6 gen 2031 150 DIR --profile calls` writes them (6 is the last change
request in force; with this seed labels of every c from 0 to 9 are added, and a c of 10 and 11 is refused). The plan calls of all
scripts go to crates/plan_calls/stdin, the oracle's answers to them to crates/plan_calls/stdout. Other calls change no plan and are
left out.
"""
import pathlib, sys

CODES = {'open': 1, 'edge': 2, 'label': 3, 'seal': 4}
calls, answers = bytearray(), []
for script in sorted(pathlib.Path(sys.argv[1]).glob('*.calls')):
    calls += bytes(11)
    results = script.with_suffix('.results').read_text().splitlines()
    lines = [l.split() for l in script.read_text().splitlines() if l.split()]
    for words, result in zip(lines, results, strict=True):
        if words[0] not in CODES:
            continue
        numbers = [int(w) for w in words[1:]]
        if words[0] == 'open':
            numbers = numbers[1:]
        if words[0] == 'seal':
            numbers = []
        calls.append(CODES[words[0]])
        for n in (numbers + [0] * 5)[:5]:
            calls += (n % 65536).to_bytes(2, 'big')
        answers.append(result)
home = pathlib.Path(__file__).resolve().parent.parent / 'crates' / 'plan_calls'
(home / 'stdin').write_bytes(calls)
(home / 'stdout').write_text(''.join(a + '\n' for a in answers))
print(len(answers), 'calls')

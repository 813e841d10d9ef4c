#!/usr/bin/env python3
"""file_cases.py ORACLE PREFIX PLANDIR.. -- REPLYDIR..: stored cases of the programs plan_cases and answer_cases.

ORACLE is the reference program; the directories are written by it:
    ORACLE --tickets 6 gen 17 240 damaged --profile damaged
    ORACLE --tickets 6 gen 7 240 small --profile small
    ORACLE --tickets 6 gen 56 240 replies --profile replies
and given in this order: damaged small -- replies. 6 is the last change request in force. With these seeds labels of
every c from 0 to 9 are read, and a c of 10, 11 and 255 is refused; answers hold the refusals 19 and 20, and 21 is refused.
Writes PREFIXplan.stdin and .stdout, PREFIXanswer.stdin and .stdout. Each file goes to stdin with its length in two bytes in front. The expected
lines are made of what the reference program's decode-plan and decode-answer print, never of our own output.
"""
import os, re, struct, subprocess, sys


def field(tag, body):
    return bytes([tag]) + struct.pack('>H', len(body)) + body


def plan_line(text):
    if text.startswith('refusal'):
        return '%02x' % int(text.split()[1])
    num = lambda name, part: int(re.search(r'\b%s: (-?\d+)' % name, part).group(1))
    head = text.split('edges: [')[0]
    out = field(1, struct.pack('>hh', num('lo', head), num('hi', head))) + field(2, bytes([num('states', head), num('start', head), num('end', head)]))
    for e in re.findall(r'Edge \{(.*?)\}', text, re.S):
        out += field(3, bytes([num('from', e), num('to', e), num('kind', e)]) + struct.pack('>H', num('gap', e)) + bytes([num('class', e)]))
    for l in re.findall(r'Label \{(.*?)\}', text, re.S):
        out += field(4, struct.pack('>HH', num('p', l), num('q', l)) + bytes([num('code', l)]))
    zs = [int(z) for z in re.search(r'readings[^\[]*\[(.*?)\]', text, re.S).group(1).replace(',', ' ').split()]
    return (out + field(5, b''.join(struct.pack('>h', z) for z in zs))).hex()


def answer_line(text):
    words = text.split()
    if words[0] == 'unreadable':
        return '%02x' % int(words[1])
    if words[0] == 'refusal':
        return field(0x83, bytes([int(words[1])])).hex()
    out = b''
    for line in text.strip().split('\n'):
        w = line.split()
        if w[0] == 'cost':
            out += field(0x81, struct.pack('>Q', int(w[1])))
        else:
            out += field(0x82, struct.pack('>HHBhB', int(w[1]), int(w[2]), int(w[4]), int(w[6]), int(w[8])))
    return out.hex()


def store(oracle, command, files, line, prefix):
    with open(prefix + '.stdin', 'wb') as given, open(prefix + '.stdout', 'w') as wanted:
        for f in files:
            data = open(f, 'rb').read()
            given.write(struct.pack('>H', len(data)) + data)
            text = subprocess.run([oracle, '--tickets', '6', command], input=data, capture_output=True).stdout.decode()
            wanted.write(line(text) + '\n')


oracle, prefix = sys.argv[1], sys.argv[2]
cut = sys.argv.index('--')
plans = [os.path.join(d, f) for d in sys.argv[3:cut] for f in sorted(os.listdir(d)) if f.endswith('.plan')]
replies = [os.path.join(d, f) for d in sys.argv[cut + 1:] for f in sorted(os.listdir(d)) if f.endswith('.reply')]
store(oracle, 'decode-plan', plans, plan_line, prefix + 'plan')
store(oracle, 'decode-answer', replies, answer_line, prefix + 'answer')

#!/usr/bin/env python3
"""Writes what the gate replays. Run at the repository's root, with the judge built (oracle/README.md).
crates/replay_reads/stdin and stdout: verdicts of the judge's own reader on 800 trees as they come in, then on
answered trees, whole and with one depth or one byte changed.
crates/replay_answers/stdin and stdout: 1,200 whole answers of the original."""
import random, subprocess

JUDGE = 'oracle/target/release/oracle'

def ask(*words, tree=b''):
    return subprocess.run([JUDGE, *words], input=tree, capture_output=True, check=True).stdout

def line(tree):
    said = ask('reads', '--answered', tree=tree).decode().split()
    number, place = (0, 0) if said[0] == 'passes' else (int(said[1]), int(said[3]))
    return f'a{number} {place} {tree.hex() or "-"}\n'

random.seed(1)
lines = ask('cases', '800', '1').decode().splitlines(keepends=True)
for text in ask('vectors', '400', '9', '--max', '200').decode().splitlines():
    if '-> answer' not in text or len(lines) >= 1200:
        continue
    tree = bytes.fromhex(text.split('-> answer ')[1].split()[0])
    lines.append(line(tree))
    changed = bytearray(tree)
    if changed:
        # depths stand last: often the change hits one of them
        at = len(changed) - 1 - min(int(random.expovariate(0.5)), len(changed) - 1)
        changed[at] = random.choice([0, 1, 2, 3, 127, 128])
        lines.append(line(bytes(changed)))
open('crates/replay_reads/stdin', 'w').writelines(lines)
open('crates/replay_reads/stdout', 'w').write(f'{len(lines)} cases, 0 differ\n')
print(len(lines), 'cases of reading')

ANSWERS = 1200
open('crates/replay_answers/stdin', 'wb').write(ask('answer-cases', str(ANSWERS), '1'))
open('crates/replay_answers/stdout', 'w').write(f'{ANSWERS} cases, 0 differ\n')
print(ANSWERS, 'whole answers')

# Writes the tables anew: Run, Sheet of crates/penne/proofs; Vectors, Limits, Rooms of crates/vectors/proofs. At the root of the repository:
#   python3 tools/penne/tables.py [ORACLE]
# ORACLE is the oracle's program (the original Rust, run unchanged), oracle/target/release/oracle if none is given.
# Fails, and writes nothing, where the Rust says something else than sheet.py and limits.py say by hand, or where the tables would not show all kinds.
import random, sys
import cases, limits, run, sheet
from grow import damaged, grown
from rust import Oracle
from vectors import *

SEEDS = range(1, 3001)                         # random trees to choose from
oracle = Oracle(sys.argv[1] if len(sys.argv) > 1 else 'oracle/target/release/oracle')

def held(what, ours, rust):
    if ours != rust: sys.exit('%s: by hand %s, the Rust %s' % (what, ours, rust))

for k, (says, given, answered, skips) in enumerate(sheet.rows): held('P%d' % (k + 1), (answered, skips), oracle.scope(given)[:2])
for what, b, n, p in limits.whole: held(what, (n, p), oracle.reads(b))
print('P1 to P8 and %d refusals by hand: the Rust says the same' % len(limits.whole))

by_hand = [Row(oracle, b, says) for says, b in cases.cases] + [Row(oracle, b, what) for what, b, n, p in limits.whole if n and len(b) <= 150]
rows = by_hand + choose([Row(oracle, grown(seed)) for seed in SEEDS], differ=30, records=70, edges=50, other=100, refused=30)
missing = report(rows)
if missing: sys.exit('MISSING: ' + ', '.join(missing))

# rows 2, 11 and 12 at their edges and in their order
def rooms():
    for r in [r for r in rows if not r.number and r.skips][:8] + [r for r in rows if r.number][:2]:
        t, l = (len(r.answer), 2 * len(r.skips)) if not r.number else (0, 0)
        for room in ((t, l, 16384), (t - 1, l, 16384), (t, l - 1, 16384), (t - 1, l - 1, 20000), (t, l, 16383), (0, 0, 0)):
            if min(room) >= 0: yield r, room, oracle.scope(r.b, *room)
lent = list(rooms())
def lent_answer(r, got): return 'refusal %d %d' % got if len(got) == 2 else answer(r)

# the three readers: every declaration of some answered trees and one past the last, depths of any number, and damaged answers
def questions():
    some = [r for r in rows if not r.number and len(r.answer) <= 150]
    some = [r for r in some if r.shows['declaration 3']][:16] + [r for r in some if 'poisoned' in r.depths][:4] + [r for r in some if not r.shows['declaration 3']][:6]
    for k, r in enumerate(some):
        for d in range(len(r.depths) + 1): yield r.answer, d, (100, 0, 2 ** 32 - 1)[(k + d) % 3]
        if k < 6: yield r.answer[:-1] + num(2 ** 32 - 1), len(r.depths) - 1, 7
        if k < 24: yield damaged(r.answer, random.Random(k)), 0, 7
    yield tree([], []), 2 ** 32 - 1, 7
asked = [(*q, oracle.readers(*q)) for q in questions()]
def told(got):
    if len(got) == 2: return ', '.join(['untold %d %d' % got] * 3)
    depth, container, name = got
    return 'told %d, told %s, told (%d, %d)' % (depth, str(container).lower(), *name)
print('%d lent sizes, %d answers of the three readers, %d of them refusals' % (len(lent), len(asked), sum(len(got) == 2 for *_, got in asked)))

def rooms_text():
    out = '-- Lent memory of several sizes, and the three readers, with the answers of the original Rust. Written by tools/penne/tables.py.\n'
    out += HEAD.replace('{true}', '{Bool, true, false}').replace('use Rattle', 'use lib.ListN.{replicate}\nuse Rattle', 1).replace('scoped_answer}', 'scoped_answer, Asked, told, untold}').replace('{besides}', '{readers}')
    out += '\n-- a tree, the room lent, its answer\nrooms : List (List ℕ × ℕ × ℕ × ℕ × Answer)\nrooms =\n'
    for r, room, got in lent: out += '    (%s, %d, %d, %d, %s) ∷\n' % (antt(r.b), *room, lent_answer(r, got))
    out += '    []\n\nrooms_same : map (λ r. scoped_answer r.0 r.1 r.2 r.3) rooms ≡ map (λ r. r.4) rooms\nunfolding run rooms\nrooms_same = refl\n'
    out += '\n-- row 1, before row 2\nlong : scoped_answer (replicate 65536 0) 0 0 0 ≡ refusal 1 0\nunfolding run\nlong = refl\n'
    out += '\n-- a tree, a declaration number, the maximum, the three answers\nasks : List (List ℕ × ℕ × ℕ × (Asked ℕ × Asked Bool × Asked (ℕ × ℕ)))\nasks =\n'
    for b, k, most, got in asked: out += '    (%s, %d, %d, (%s)) ∷\n' % (antt(b), k, most, told(got))
    return out + '    []\n\nasks_same : map (λ r. readers r.0 r.1 r.2) asks ≡ map (λ r. r.3) asks\nunfolding run_checks asks\nasks_same = refl\n'

vectors = '-- %d trees with the answers of the original Rust. Written by tools/penne/tables.py.\n' % len(rows) + tables(rows)
for name, text in (('Run', run.text()), ('Sheet', sheet.text())):
    with open(run.CRATE + 'proofs/%s.antt' % name, 'w') as f: f.write(text)
for name, text in (('Vectors', vectors), ('Limits', limits.text()), ('Rooms', rooms_text())):
    with open('crates/vectors/proofs/%s.antt' % name, 'w') as f: f.write(text)

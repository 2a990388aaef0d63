# Trees with the answers of the original Rust, as tables of crates/vectors/proofs: the definitions compute the same.
# tables.py writes those of the gate, many.py checks many more.
import sys
from collections import Counter
from trees import *

class Row:
    """A tree with what the oracle says of it: number and place of the refusal, or answer, list, depths, list by walks, edges."""
    def __init__(self, oracle, b, says=None):
        self.b, self.says, self.number = b, says, 0
        got = oracle.scope(b)
        if len(got) == 2: self.number, self.at = got; self.shows = Counter({'refusal %d' % self.number: 1}); return
        self.answer, self.skips, self.depths = got
        self.walks, self.edges = oracle.walks(b), oracle.edges(b)
        given, told = Parts(b), Parts(self.answer)
        self.shows = Counter()
        for w, n in given.count.items():
            if told.count[w]: self.shows[w] = n                     # in the tree, and in its answer too
        for k in range(18):
            w = 'poison %d' % k
            if told.count[w] > given.count[w]: self.shows['made ' + w] += 1
        self.shows.update(('depth ' + d if d in ('none', 'poisoned', '0') else 'depth 1 or more') for d in self.depths)
        if self.skips: self.shows['records'] += len(self.skips)
        if self.skips != self.walks: self.shows['walks differ'] += 1
        if self.edges: self.shows['edges'] += len(self.edges)
        self.fine = set(told.below) | {('given',) + x for x in given.below} | {('made',) + x for x in told.below if x[1].startswith('poison') and told.below[x] > given.below[x]} \
            | {('depths', *self.depths), ('edges', *self.edges), ('records', len(self.skips), self.skips == self.walks)}
    def features(self): return self.fine if not self.number else {('refusal', self.number), ('refusal', self.number, self.at)}

# what the tables have to show
NEEDED = ['declaration %d' % k for k in range(6)] + ['statement %d' % k for k in range(9)] + ['expression %d' % k for k in range(16)] \
    + ['step 0', 'step 1'] + ['type %d' % k for k in range(26)] + ['poison %d' % k for k in range(18)] + ['made poison %d' % k for k in range(17)] \
    + ['refusal %d' % k for k in range(3, 11)] + ['bare %s in %s' % (x, y) for x in ('declaration', 'label') for y in ('then', 'else')] \
    + ['builtin', 'called', 'records', 'walks differ', 'edges', 'depth none', 'depth poisoned', 'depth 0', 'depth 1 or more']

def report(rows):
    """Prints in how many trees each kind is shown; what is missing."""
    shown = Counter(w for r in rows for w in r.shows)
    def line(what, word, ks): print('  %s %s' % (what, ' '.join('%d:%d' % (k, shown['%s %d' % (word, k)]) for k in ks)))
    print('%d trees, %d of them refused, %d with records, %d where walks and pruning differ; in how many each kind is:' % (len(rows), sum(r.number > 0 for r in rows), shown['records'], shown['walks differ']))
    for what, word, ks in (('poison made by the passes', 'made poison', range(17)), ('poison carried', 'poison', range(18)), ('declaration', 'declaration', range(6)), ('statement', 'statement', range(9)),
                           ('expression', 'expression', range(16)), ('step', 'step', range(2)), ('type', 'type', range(26)), ('refusal', 'refusal', range(3, 11))): line(what, word, ks)
    print('  ' + ', '.join('%s: %d' % (w, shown[w]) for w in NEEDED if not w[-1].isdigit() or w == 'depth 0'))
    return [w for w in NEEDED if not shown[w]]

def choose(rows, differ, records, edges, other, refused):
    """So many trees whose two lists differ, with records, with several edges, without any of it, and refused: greedily those that show most that is new or rare."""
    kept, seen = [], Counter()
    def pick(want, test):
        pool = [r for r in rows if test(r)]
        for _ in range(min(want, len(pool))):
            best = max(pool, key=lambda r: sum(0.5 ** seen[f] for f in r.features())); pool.remove(best); kept.append(best); seen.update(best.features())
    pick(differ, lambda r: r.shows['walks differ'])
    pick(records, lambda r: r.shows['records'] and not r.shows['walks differ'])
    pick(edges, lambda r: r.shows['edges'] > 1)
    pick(other, lambda r: not r.number and not r.shows['records'] and not r.shows['walks differ'] and r.shows['edges'] < 2)
    pick(refused, lambda r: r.number)
    return kept

HEAD = """use Prim.Native.Nat.{ℕ}
use mathlib.Core.Bool.{true}
use mathlib.Core.Path.{◌≡◌, refl}
use mathlib.Core.List.{List, [], ◌∷◌, map}
use Rattle.penne.specs.Scoper.{Answer, answer, refusal, scoped_answer}
use Rattle.penne.proofs.Checks.{besides}
use Rattle.penne.proofs.Run.{run, run_checks}
"""
def answer(r): return 'refusal %d %d' % (r.number, r.at) if r.number else 'answer (%s) (%s)' % (antt(r.answer), pairs(r.skips))

def tables(rows, size=20):
    """The rows as tables of so many, two claims each."""
    out = HEAD
    for n in range(0, len(rows), size):
        k = n // size + 1
        out += '\n-- a tree, its answer, the list by walks, the edges\ntable%d : List (List ℕ × Answer × List (ℕ × ℕ) × List (ℕ × ℕ))\ntable%d =\n' % (k, k)
        for r in rows[n:n + size]:
            out += '    -- %s\n' % r.says if r.says else ''
            out += '    (%s, %s, %s, %s) ∷\n' % (antt(r.b), answer(r), *((pairs(r.walks), pairs(r.edges)) if not r.number else ('[]', '[]')))
        out += '    []\n'
        out += '\nsame%d : map (λ r. scoped_answer r.0 65535 16384 16384) table%d ≡ map (λ r. r.1) table%d\nunfolding run table%d\nsame%d = refl\n' % (k, k, k, k, k)
        out += '\nbesides%d : map (λ r. besides r.0) table%d ≡ map (λ r. (r.2, r.3, true)) table%d\nunfolding run_checks table%d\nbesides%d = refl\n' % (k, k, k, k, k)
    return out

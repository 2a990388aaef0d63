# The text of crates/penne/proofs/Run.antt: definitions that unfold all of specs/ (and the tables' own), so that a table names only these.
import re
CRATE = 'crates/penne/'

def names(part, m):
    return ["%s'.%s" % (m, n) for n in re.findall(r'^unfoldable pub (\S+)', open('%s%s/%s.antt' % (CRATE, part, m)).read(), re.M)]

def text():
    mods = [l.split()[2] for l in open(CRATE + 'specs/Lib.antt') if l.startswith('pub mod')]
    specs = [m for m in mods if names('specs', m)]
    out = ['-- To unfold `run` is to unfold all of specs/; `run_checks` adds what the tables compute besides. Written by tools/penne/tables.py.',
           'use Prim.Native.Nat.{ℕ}', 'use mathlib.Core.List.{List, flat_map}']
    out += ["use Rattle.penne.specs.%s as %s'" % (m, m) for m in specs]
    out += ["use Rattle.penne.proofs.%s as %s'" % (m, m) for m in ('Reach', 'Checks')]
    out += ['', "unfoldable pub run : List ℕ → (bytes words work : ℕ) → Scoper'.Outcome",
            'unfolding flat_map ' + ' '.join(n for m in specs for n in names('specs', m)), "run s m n w = Scoper'.scoped s m n w",
            '', 'unfoldable pub run_checks : List ℕ → List (ℕ × ℕ) × List (ℕ × ℕ) × Bool',
            'unfolding run ' + ' '.join(names('proofs', 'Reach') + names('proofs', 'Checks')), "run_checks s = Checks'.besides s", '']
    out.insert(2, 'use mathlib.Core.Bool.{Bool}')
    return '\n'.join(out)

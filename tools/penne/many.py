# Checks the definitions on many more random trees, half of them made by grow.py and half by the oracle, in a copy of the crate. At the root of the repository:
#   python3 tools/penne/many.py TREES [SEED [ORACLE]]
import os, shutil, subprocess, sys, tempfile
import run
from grow import grown
from rust import Oracle
from vectors import *

count, seed = int(sys.argv[1]), int(sys.argv[2]) if len(sys.argv) > 2 else 1
oracle = Oracle(sys.argv[3] if len(sys.argv) > 3 else 'oracle/target/release/oracle')
rows = [Row(oracle, b) for b in [grown(10 ** 6 * seed + k) for k in range(count // 2)] + oracle.trees(count - count // 2, seed)]
report(rows)
with tempfile.TemporaryDirectory() as top:
    crate = os.path.join(top, run.CRATE)
    for part in ('specs', 'src'): shutil.copytree(run.CRATE + part, os.path.join(crate, part))
    os.mkdir(os.path.join(crate, 'proofs'))
    for m in ('Reach', 'Checks', 'Run'): shutil.copy(run.CRATE + 'proofs/%s.antt' % m, os.path.join(crate, 'proofs'))
    mods = ['Reach', 'Checks', 'Run']
    for n in range(0, len(rows), 200):
        mods.append('Vectors%d' % (n // 200))
        with open(os.path.join(crate, 'proofs/%s.antt' % mods[-1]), 'w') as f: f.write(tables(rows[n:n + 200]))
    with open(os.path.join(crate, 'proofs/Lib.antt'), 'w') as f: f.write(''.join('pub mod %s\n' % m for m in mods))
    with open(os.path.join(top, 'crates.txt'), 'w') as f: f.write('penne:\n')
    r = subprocess.run(['rt', 'check'], cwd=crate, capture_output=True, text=True)
    print('\n'.join(l for l in (r.stdout + r.stderr).split('\n') if l.startswith(('rt:', 'logic=')) or 'error' in l))
    sys.exit(r.returncode)

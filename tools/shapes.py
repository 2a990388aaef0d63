#!/usr/bin/env python3
"""Runs a reading program on large trees of many shapes in a stack of 256 KB, beside the judge.
  python3 tools/shapes.py crates/reads/out/reads
Run at the repository's root."""
import resource, subprocess, sys

JUDGE = 'oracle/target/release/oracle'

def num(n):
    out = []
    while n >= 128:
        out.append(128 + n % 128)
        n //= 128
    return bytes(out + [n])

def cat(*parts): return b''.join(p if isinstance(p, bytes) else num(p) for p in parts)
def many(items): return num(len(items)) + b''.join(items)

ident, true = cat(0, 0, 0, 0), cat(2, 1, 0)
reference = lambda steps: cat(0, 0, 0, 0, ident, many(steps))
array = lambda items: cat(6, 0, 0, many(items), 0)
call = lambda items: cat(14, ident, 0, 0, many(items))
assign = lambda value: cat(1, 0, value, reference([]))
function = lambda statements: cat(1, 0, 0, 0, ident, 0, 0, many(statements), 0, ident, 0, 0)

def tree(declarations, names=(b'f',)):
    return many([num(len(n)) + n for n in names]) + many(declarations) + bytes(len(declarations))

def nested(depth, inner, around):
    for _ in range(depth):
        inner = around(inner)
    return inner

SHAPES = {
    'arrays in arrays, each long': tree([function([assign(nested(60, true, lambda x: array([x] + [true] * 322)))])]),
    'one long array': tree([function([assign(array([true] * 21000))])]),
    'steps in steps': tree([function([assign(nested(20, true, lambda x: cat(9, 0, reference([cat(0, 0, x)] + [cat(0, 0, true)] * 400))))])]),
    'deep types': tree([function([assign(array([cat(13, 0, nested(59, cat(3), lambda t: cat(24, t)))] * 1000))])]),
    'blocks in blocks': tree([function([nested(60, cat(3, 0), lambda x: cat(7, 0, many([x] + [cat(3, 0)] * 30)))])]),
    'one level too deep': tree([function([nested(63, cat(3, 0), lambda x: cat(7, 0, many([x])))])]),
    'many imports': tree([cat(4, 0, 0)] * 16000),
    'many names': tree([], [b'%064d' % i for i in range(1000)]),
    'calls in calls': tree([function([assign(call([call([true] * 100)] * 200))])]),
    'too long': tree([cat(4, 0, 0)] * 17000),
}

failed = 0
for name, data in SHAPES.items():
    small = lambda: resource.setrlimit(resource.RLIMIT_STACK, (256 * 1024, 256 * 1024))
    ours = subprocess.run(sys.argv[1:], input=data, capture_output=True, preexec_fn=small)
    theirs = subprocess.run([JUDGE, 'reads'], input=data, capture_output=True).stdout
    same = ours.returncode == 0 and ours.stdout == theirs
    failed += not same
    print(f'{name}: {len(data)} bytes, {ours.stdout.decode().strip() or "no answer"}' + ('' if same else ', DIFFERS'))
print(len(SHAPES), 'shapes,', failed, 'differ')
sys.exit(failed > 0)

# The form of docs/FORM.md: building trees by hand, counting what is in one, and lists of numbers in antt.
from collections import Counter

# BUILDING: numbers below 2^32 in shortest form; every part is bytes, and a number stands for its bytes

def num(n):
    out = bytearray()
    while n >= 128:
        out.append(128 + n % 128); n //= 128
    out.append(n)
    return bytes(out)

def cat(*xs): return b''.join(num(x) if isinstance(x, int) else x for x in xs)
def lst(*xs): return num(len(xs)) + cat(*xs)
def names(*xs): return lst(*[num(len(x)) + x.encode() for x in xs])
def ident(n, p, i=0, a=0): return cat(n, p, i, a)
def ok(*xs): return cat(0, *xs)
def err(*xs): return cat(1, *xs)
def opt(x=None): return b'\0' if x is None else cat(1, x)
def tree(ns, decls, depths=None): return cat(names(*ns), lst(*decls), *([0] * len(decls) if depths is None else depths))

# types
VOID, INT32, USIZE, NAMELESS = num(0), num(3), num(11), num(23)
def unresolved(i): return cat(22, i)
def pointer(t): return cat(24, t)
# expressions; a reference is at address depth 0, without steps
def boolean(v, p): return cat(2, v, p)
def sizeof(p, t): return cat(13, p, t)
def reference(p, base): return cat(0, p, p, base, lst())
def deref(p, base): return cat(9, 0, reference(p, base))
# statements
def declare(p, i, v=None, t=None): return cat(0, p, opt(v), opt(t), i)
def assign(p, v, r): return cat(1, p, v, r)
def goto(i, p): return cat(4, i, p)
def label(i, p): return cat(5, i, p)
def cond(p, l, r, t, e=None): return cat(6, p, 0, p, p, l, r, t, opt(e))
def block(p, *ts): return cat(7, p, lst(*ts))
# declarations
def constant(i, v, t, p=1): return cat(0, 0, p, p, i, v, t)
def function(i, body, ret, flags=0, params=lst(), p=1): return cat(1, flags, p, p, i, params, body, ret)
def body(ts, res, v=None): return cat(lst(*ts), opt(v), res)
def structure(i, ms, t, p=1): return cat(3, 0, p, i, lst(*ms), t)
def member(p, i, t): return cat(p, i, t)

# COUNTING

# names and places of the poison kinds 0 to 16
POISONS = [(0, 0), (1, 2), (1, 1)] + [(1, 2)] * 6 + [(1, 1)] * 3 + [(1, 2), (2, 4), (1, 1), (1, 2), (2, 3)]

class Parts:
    """What a tree that can be read holds: `count` by words as 'statement 4', `below` the pairs of a node and one inside it."""
    def __init__(self, b):
        self.b, self.at, self.count, self.below = b, 0, Counter(), Counter()
        for _ in range(self.num()): self.skip(self.num())
        n = self.num()
        for _ in range(n): self.decl()
        self.depths = [self.num() for _ in range(n)]
        assert self.at == len(b)
    def num(self):
        v = w = 0
        while True:
            x = self.b[self.at]; self.at += 1
            v += (x % 128) << w; w += 7
            if x < 128: return v
    def nums(self, n): return [self.num() for _ in range(n)]
    def skip(self, n): self.at += n
    def see(self, up, what, k):
        word = '%s %d' % (what, k)
        self.count[word] += 1; self.below[up, word] += 1
        return word
    def ident(self): self.nums(4)
    def poison(self, up):
        k = self.num(); self.see(up, 'poison', k)
        self.nums(1 if k == 17 else sum(POISONS[k]))
    def maybe(self, up, f):
        if self.num(): self.poison(up)
        else: f(up)
    def option(self, f):
        if self.num(): f()
    def list(self, f):
        for _ in range(self.num()): f()
    def some_ident(self, up): self.maybe(up, lambda up: self.ident())
    def type(self, up):
        k = self.num(); w = self.see(up, 'type', k)
        if 14 <= k <= 19 or k > 23: self.type(w)
        if k in (15, 20, 21, 22): self.ident()
        if k in (14, 21): self.num()
    def carried(self, w): self.option(lambda: self.maybe(w, self.type))
    def ref(self, up):
        self.nums(3); self.some_ident(up + ' base'); self.list(lambda: self.step(up))
    def step(self, up):
        k = self.num(); w = self.see(up, 'step', k)
        if k: self.ident(); self.num()
        else: self.num(); self.expr(w)
    def item(self, w): self.some_ident(w + ' member'); self.num(); self.expr(w)
    def expr(self, up):
        k = self.num(); w = self.see(up, 'expression', k); e = lambda: self.expr(w)
        if k == 0: self.nums(3); e(); e()
        elif k == 1: self.nums(3); e()
        elif k == 2: self.nums(2)
        elif k in (3, 4): self.skip(16); self.num(); self.carried(w)
        elif k == 5: self.skip(self.num()); self.num()
        elif k == 6: self.num(); self.carried(w); self.list(e); self.num()
        elif k == 7: self.num(); self.list(lambda: self.item(w)); self.maybe(w, self.type)
        elif k == 8: self.num(); e()
        elif k == 9: self.carried(w); self.ref(w)
        elif k == 10: self.nums(2); self.carried(w); e()
        elif k == 11: self.nums(2); self.type(w); e()
        elif k == 12: self.num(); self.ref(w)
        elif k == 13: self.num(); self.type(w)
        elif k == 14: self.ident(); b = self.num(); self.count['builtin' if b else 'called'] += 1; self.carried(w); self.list(e)
        else: self.poison(w)
    def branch(self, w, side):
        k = self.b[self.at]
        if k in (0, 5): self.count['bare %s in %s' % ('label' if k else 'declaration', side)] += 1
        self.stmt('%s of %s' % (side, w))
    def stmt(self, up):
        k = self.num(); w = self.see(up, 'statement', k)
        if k == 0: self.num(); self.option(lambda: self.expr(w)); self.carried(w); self.ident()
        elif k == 1: self.num(); self.expr(w); self.ref(w)
        elif k == 2: self.ident(); b = self.num(); self.count['builtin' if b else 'called'] += 1; self.list(lambda: self.expr(w))
        elif k == 3: self.num()
        elif k in (4, 5): self.ident(); self.num()
        elif k == 6:
            self.nums(4); self.expr(w); self.expr(w); self.branch(w, 'then')
            if self.num(): self.num(); self.branch(w, 'else')
        elif k == 7: self.num(); self.list(lambda: self.stmt(w))
        else: self.poison(w)
    def param(self, w): self.num(); self.some_ident(w + ' name'); self.maybe(w + ' type', self.type)
    def body(self, w):
        self.list(lambda: self.stmt(w)); self.option(lambda: self.expr(w + ' return')); self.ident()
    def decl(self):
        k = self.num(); w = self.see('', 'declaration', k)
        if k == 0: self.nums(3); self.ident(); self.expr(w); self.maybe(w + ' type', self.type)
        elif k in (1, 2):
            self.nums(3); self.ident(); self.list(lambda: self.param(w))
            if k == 1: self.maybe(w + ' body', self.body)
            self.maybe(w + ' return type', self.type)
        elif k == 3: self.nums(2); self.ident(); self.list(lambda: self.param(w)); self.maybe(w + ' type', self.type)
        elif k == 4: self.skip(self.num()); self.num()
        else: self.poison(w)

# ANTT

def antt(xs): return ' ∷ '.join([str(x) for x in xs] + ['[]'])
def pairs(ps): return antt('(%d, %d)' % p for p in ps)

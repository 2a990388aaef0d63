# Random trees of the form of docs/FORM.md, small ones. A seed gives a tree.
import random
from trees import *

class Any:
    """Whatever the form allows, names few enough to meet."""
    bare = 0.3                                 # how often a branch may be a declaration or a label
    def __init__(self, seed):
        self.r = random.Random(seed); self.p = 0; self.k = self.r.randint(1, 5)
        self.bare = self.r.random() < self.bare
    def place(self):
        self.p += 1
        return self.p if self.r.random() < 0.97 else self.r.choice([127, 128, 300, 2 ** 32 - 1])
    def name(self): return self.r.randrange(self.k)
    def id(self): return ident(self.name(), self.place(), self.r.choice([0, 0, 0, 1, 2, 9, 200]), self.r.randint(0, 1))
    def poison(self):
        k = self.r.choice([0, 0, 0] + list(range(18)))
        if k == 17: return cat(17, self.r.choice([0, 5, 4000]))
        return cat(k, *[self.name() for _ in range(POISONS[k][0])], *[self.place() for _ in range(POISONS[k][1])])
    def maybe(self, x, q=0.08): return err(self.poison()) if self.r.random() < q else ok(x())
    def option(self, x, q=0.5): return opt(x()) if self.r.random() < q else opt()
    def few(self, x, *counts): return lst(*[x() for _ in range(self.r.choice(counts))])
    def type(self, d=0, own=False):
        r = self.r; c = r.random()
        if d > 2 or c < 0.35: return num(r.randrange(14))
        if c < 0.42: return cat(14, self.type(d + 1, own), r.choice([0, 7, 200]))
        if c < 0.55: return cat(15, self.type(d + 1, own), self.id())
        if c < 0.62: return cat(r.randint(16, 19), self.type(d + 1, own))
        if c < 0.70: return cat(20, self.id())
        if c < 0.76: return cat(21, self.id(), 4)
        if c < 0.88: return cat(22, self.id())
        if c < 0.91: return num(23) if not own or r.random() < 0.3 else num(3)
        return cat(r.randint(24, 25), self.type(d + 1, False))
    def carried(self): return self.option(lambda: self.maybe(self.type), 0.15)
    def step(self, d): return cat(0, self.r.randint(0, 2), self.expr(d + 1)) if self.r.random() < 0.6 else cat(1, self.id(), self.r.choice([0, 1, 4]))
    def ref(self, d): return cat(self.r.choice([0, 0, 1, 255]), self.place(), self.place(), self.maybe(self.id, 0.06), self.few(lambda: self.step(d), 0, 0, 0, 0, 0, 0, 0, 0, 1, 2))
    def expr(self, d=0):
        r = self.r; c = r.random(); e = lambda: self.expr(d + 1); two = lambda: cat(self.place(), self.place())
        if d > 2 or c < 0.45: return cat(9, self.carried(), self.ref(d + 1)) if r.random() < 0.75 else boolean(r.randint(0, 1), self.place())
        if c < 0.50: return cat(0, r.randint(0, 9), two(), e(), e())
        if c < 0.53: return cat(1, 1, two(), e())
        if c < 0.54: return cat(r.randint(3, 4), bytes(r.randrange(256) for _ in range(16)), self.place(), self.carried())
        if c < 0.56: return cat(5, 2, b'\xff\x00', self.place())
        if c < 0.64: return cat(6, self.place(), self.carried(), self.few(e, 0, 1, 2), r.choice([0, 9]))
        if c < 0.68: return cat(7, self.place(), self.few(lambda: cat(self.maybe(self.id), r.choice([0, 3]), e()), 0, 1, 2), self.maybe(self.type))
        if c < 0.71: return cat(8, self.place(), e())
        if c < 0.74: return cat(10, two(), self.carried(), e())
        if c < 0.82: return cat(11, two(), self.type(), e())
        if c < 0.85: return cat(12, self.place(), self.ref(d + 1))
        if c < 0.90: return cat(13, self.place(), self.type())
        if c < 0.97: return cat(14, self.id(), r.choice([0, 0, 0, 2]), self.carried(), self.few(e, 0, 1, 2))
        return cat(15, self.poison())
    def stmt(self, d=0, branch=False):
        r = self.r; c = r.random()
        if branch and not self.bare: c = r.choice([0.3, 0.45, 0.48, 0.6, 0.9, 0.9, 0.99])
        if c < 0.25: return cat(0, self.place(), self.option(lambda: self.expr(2), 0.3), self.carried(), self.id())
        if c < 0.42: return cat(1, self.place(), self.expr(2), self.ref(2))
        if c < 0.47: return cat(2, self.id(), r.choice([0, 0, 3]), self.few(lambda: self.expr(2), 0, 1))
        if c < 0.49: return cat(3, self.place())
        if c < 0.66: return goto(self.id(), self.place())
        if c < 0.80: return label(self.id(), self.place())
        if c < 0.87 and d < 2: return self.when(boolean(1, 1), self.expr(2), d)
        if c < 0.97 and d < 3: return block(self.place(), *[self.stmt(d + 1) for _ in range(r.randint(0, 4))])
        return cat(8, self.poison())
    def when(self, x, y, d):
        return cat(6, self.place(), 0, self.place(), self.place(), x, y, self.stmt(d + 1, True), self.option(lambda: cat(self.place(), self.stmt(d + 1, True))))
    def param(self, own): return cat(self.place(), self.maybe(self.id), self.maybe(lambda: self.type(0, own)))
    def decl(self):
        r = self.r; c = r.random(); head = lambda: cat(r.choice([0, 1, 4, 31]), self.place(), self.place())
        if c < 0.30: return cat(0, head(), self.id(), self.expr(1), self.maybe(lambda: self.type(0, True)))
        if c < 0.70:
            b = lambda: cat(self.few(self.stmt, 1, 3, 5, 7), self.option(lambda: self.expr(2)), self.id())
            return cat(1, head(), self.id(), self.few(lambda: self.param(False), 0, 0, 1, 2), self.maybe(b, 0.03), self.maybe(self.type))
        if c < 0.76: return cat(2, head(), self.id(), self.few(lambda: self.param(False), 0, 1), self.maybe(self.type))
        if c < 0.94: return cat(3, r.choice([0, 16]), self.place(), self.id(), self.few(lambda: self.param(True), 0, 1, 2, 3), self.maybe(self.type))
        if c < 0.97: return cat(4, 1, b'z', self.place())
        return cat(5, self.poison())
    def tree(self):
        ns = self.r.sample(['a', 'b', 'c', 'main', 'x', 'mains', 'l'], self.k)
        return tree(ns, [self.decl() for _ in range(self.r.choice([1, 1, 2, 2, 3, 4]))])

class Gotos(Any):
    """Functions full of gotos, around goto l, x, l, x; names f, x, y, l, m."""
    def some(self, *ns): return ident(self.r.choice(ns), self.place())
    def use(self): return assign(self.place(), boolean(1, 1), reference(self.place(), ok(self.some(1, 1, 2))))
    def go(self, *ns): return goto(self.some(*ns or (3, 3, 4)), self.place())
    def mark(self, *ns): return label(self.some(*ns or (3, 3, 4)), self.place())
    def var(self, *ns): return declare(self.place(), self.some(*ns or (1, 1, 2)))
    def stmt(self, d=0, branch=False):
        r = self.r; c = r.random()
        if branch and not self.bare: c = r.choice([0.1, 0.1, 0.3, 0.95, 0.95])
        if c < 0.25: return self.go()
        if c < 0.45: return self.use()
        if c < 0.65: return self.var()
        if c < 0.82: return self.mark()
        if c < 0.92 and d < 2: return self.when(boolean(1, 1), boolean(0, 1), d)
        if d < 3: return block(self.place(), *[self.stmt(d + 1) for _ in range(r.randint(1, 4))])
        return cat(3, self.place())
    def core(self):
        r = self.r
        wrap = lambda s: r.choice([s, s, block(1, s), cond(1, boolean(1, 1), boolean(0, 1), s)])
        ts = [wrap(self.go()), self.var(1), self.mark(3), self.use()]
        return ts if r.random() < 0.7 else [ts[0], block(1, *ts[1:])]
    def body(self):
        ts = self.core()
        for _ in range(self.r.randint(0, 3)): ts.insert(self.r.randint(0, len(ts)), self.stmt())
        return body(ts, ident(0, 1), deref(1, ok(self.some(1))) if self.r.random() < 0.3 else None)
    def tree(self):
        r = self.r
        ps = [cat(1, ok(ident(2, 9)), ok(3))] if r.random() < 0.15 else []
        ds = [function(self.some(0), ok(self.body()), ok(VOID), params=lst(*ps))]
        if r.random() < 0.1: ds.insert(0, constant(self.some(1, 2), boolean(1, 1), ok(INT32)))
        return tree(['f', 'x', 'y', 'l', 'm'], ds)

class Bare(Gotos):
    """The same, with a declaration or a label for a branch."""
    bare = 1
    def core(self):
        x, l, g = self.var(1), self.mark(3), self.go(3)
        c = lambda a, b=None: cond(1, boolean(1, 1), boolean(0, 1), a, b and cat(1, b))
        return self.r.choice([[c(x), self.use()], [c(g, x), l, self.use()], [c(l, g), x, self.use()], [c(block(1, g), x), self.use(), l, self.use()], [g, x, c(self.use(), l), self.use()]])

class Holders(Any):
    """Constants and structures that hold one another; names A, B, C, m, n, and A to C are mostly used as what they are."""
    def __init__(self, seed):
        super().__init__(seed)
        self.structures = [k for k in range(3) if self.r.random() < 0.6]
    def some(self, structure):
        fit = [k for k in range(3) if (k in self.structures) == structure]
        return ident(self.r.choice(fit if fit and self.r.random() < 0.9 else range(3)), self.place())
    def type(self, d=0, own=False):
        r = self.r; c = r.random()
        if d > 1 or c < 0.45: return cat(r.choice([20, 22]), self.some(True))
        if c < 0.85: return cat(15, r.choice([INT32, self.type(d + 1)]), self.some(False))
        return cat(r.choice([24, 16, 25]), self.type(d + 1))
    def member(self): return member(self.place(), ok(ident(self.r.choice([3, 4, 4, 0]), self.place())), ok(self.type()))
    def decl(self, k):
        r = self.r; i = ident(k, self.place())
        if k in self.structures: return structure(i, [self.member() for _ in range(r.randint(0, 2))], ok(NAMELESS))
        return constant(i, deref(1, ok(self.some(False))) if r.random() < 0.5 else sizeof(1, self.type()), ok(r.choice([INT32, self.type()])))
    def tree(self):
        ks = [0, 1, 2]; self.r.shuffle(ks)
        if self.r.random() < 0.2: ks.append(self.r.randrange(3))
        return tree(['A', 'B', 'C', 'm', 'n'], [self.decl(k) for k in ks])

def damaged(b, r):
    b = bytearray(b); c = r.random(); k = r.randrange(len(b))
    if c < 0.4: b[k] = r.choice([0, 1, 2, 3, 127, 128, 255, r.randrange(256)])
    elif c < 0.6: del b[k:]
    elif c < 0.8: b.insert(k, r.choice([0, 1, 128, 255]))
    else: del b[k]
    return bytes(b)

def grown(seed, most=150):
    """A tree of at most so many bytes, every sixth one damaged."""
    r = random.Random(-seed)
    while True:
        b = (Any, Gotos, Holders, Bare)[seed % 4](r.random()).tree()
        if len(b) <= most: return damaged(b, r) if r.random() < 1 / 6 else b

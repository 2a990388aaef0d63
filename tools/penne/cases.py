# Small trees by hand, one for each rule that random trees rarely meet. Only the trees are written here: their answers are the Rust's.
from trees import *

class Script:
    """Parts of a tree whose names are given as text; every place is another number, and identifiers come in with ids and authorities that must be overwritten or kept."""
    def __init__(self, *names): self.names, self.p = list(names), 0
    def place(self): self.p += 1; return self.p
    def id(self, n): p = self.place(); return ident(self.names.index(n), p, 90 + p % 7, p % 2)
    def maybe(self, n): return ok(self.id(n)) if isinstance(n, str) else err(n)
    # types: a name is a structure (kind 22)
    def ty(self, t): return num(t) if isinstance(t, int) else unresolved(self.id(t)) if isinstance(t, str) else t
    def array(self, t, n): return cat(15, self.ty(t), self.id(n))
    def word(self, n): return cat(21, self.id(n), 8)
    def carried(self, t): return b'\0' if t is None else opt(ok(self.ty(t)))
    # expressions: a name is its value, None a boolean
    def expr(self, x): return boolean(1, self.place()) if x is None else cat(9, 0, self.ref(x)) if isinstance(x, str) else x
    def ref(self, n, *steps, depth=0): return cat(depth, self.place(), self.place(), self.maybe(n), lst(*steps))
    def at(self, x, endless=0): return cat(0, endless, self.expr(x))
    def dot(self, n, offset=0): return cat(1, self.id(n), offset)
    def binary(self, x, y): return cat(0, 3, self.place(), self.place(), self.expr(x), self.expr(y))
    def list(self, *xs): return cat(6, self.place(), 0, lst(*[self.expr(x) for x in xs]), 77)
    def make(self, t, *items): return cat(7, self.place(), lst(*[cat(self.maybe(n), 2, self.expr(x)) for n, x in items]), ok(self.ty(t)))
    def cast(self, t, x): return cat(11, self.place(), self.place(), self.ty(t), self.expr(x))
    def bits(self, t, x): return cat(10, self.place(), self.place(), self.carried(t), self.expr(x))
    def size(self, t): return sizeof(self.place(), self.ty(t))
    def length(self, n): return cat(12, self.place(), self.ref(n))
    def call(self, n, *xs, builtin=0, t=None): return cat(14, self.id(n), builtin, self.carried(t), lst(*[self.expr(x) for x in xs]))
    # statements
    def var(self, n, x=None, t=None): return cat(0, self.place(), opt(None if x is None else self.expr(x)), self.carried(t), self.id(n))
    def set(self, n, x=None): v = self.expr(x); return cat(1, self.place(), v, self.ref(n))
    def do(self, n, *xs, builtin=0): return cat(2, self.id(n), builtin, lst(*[self.expr(x) for x in xs]))
    def loop(self): return cat(3, self.place())
    def goto(self, n): return cat(4, self.id(n), self.place())
    def label(self, n): return cat(5, self.id(n), self.place())
    def when(self, t, e=None, x=None, y=None):
        return cat(6, self.place(), 1, self.place(), self.place(), self.expr(x), self.expr(y), t, opt(e and cat(self.place(), e)))
    def block(self, *ts): return cat(7, self.place(), lst(*ts))
    # declarations
    def head(self, flags): return cat(flags, self.place(), self.place())
    def const(self, n, x=None, t=3, flags=0): return cat(0, self.head(flags), self.id(n), self.expr(x), ok(self.ty(t)))
    def params(self, ps): return lst(*[cat(self.place(), self.maybe(n), ok(self.ty(t))) for n, t in ps])
    def fn(self, n, *ts, params=(), value=None, t=0, flags=0):
        return cat(1, self.head(flags), self.id(n), self.params(params), ok(lst(*ts), opt(None if value is None else self.expr(value)), self.id(n)), ok(self.ty(t)))
    def fnhead(self, n, params=(), t=0, flags=2): return cat(2, self.head(flags), self.id(n), self.params(params), ok(self.ty(t)))
    def struct(self, n, *ms, t=23): return cat(3, 0, self.place(), self.id(n), self.params(ms), ok(self.ty(t)))
    def tree(self, *ds): return tree(self.names, ds)

cases = []
def case(says, *names):
    def add(f):
        s = Script(*names); cases.append((says, s.tree(*f(s)))); return f
    return add

# LABELS
@case('kind 2: a goto sees no label before it', 'f', 'l')
def _(s): return [s.fn('f', s.label('l'), s.goto('l'))]
@case('kind 1: of two equal labels the first in the text is poisoned, yet takes id 2', 'f', 'l', 'm')
def _(s): return [s.fn('f', s.label('l'), s.label('l'), s.goto('m'), s.label('m'))]
@case('a goto takes the outermost label of its name, also past one in an inner scope', 'f', 'l')
def _(s): return [s.fn('f', s.goto('l'), s.block(s.goto('l'), s.label('l')), s.label('l'))]
@case('the else branch sees a bare label of the then branch', 'f', 'l')
def _(s): return [s.fn('f', s.when(s.label('l'), s.goto('l')))]
@case('the then branch does not see a bare label of the else branch', 'f', 'l')
def _(s): return [s.fn('f', s.when(s.goto('l'), s.label('l')))]
@case('label ids go on over functions, a duplicate function included', 'f', 'l')
def _(s): return [s.fn('f', s.label('l')), s.fn('f', s.label('l')), s.fn('l', s.label('l'))]

# PRUNING
@case('kind 13, then Poisoned, each with its own place', 'f', 'x', 'l')
def _(s): return [s.fn('f', s.goto('l'), s.var('x'), s.label('l'), s.set('x', 'x'), value='x')]
@case('the first of two gotos is told', 'f', 'x', 'l')
def _(s): return [s.fn('f', s.goto('l'), s.goto('l'), s.var('x'), s.label('l'), s.set('x'))]
@case('a goto behind the declaration takes nothing out of the set', 'f', 'x', 'y', 'l')
def _(s): return [s.fn('f', s.var('x'), s.goto('l'), s.var('y'), s.goto('l'), s.label('l'), s.set('x', 'y'))]
@case('a label prunes its own layer alone', 'f', 'x', 'y', 'l')
def _(s): return [s.fn('f', s.var('x'), s.block(s.goto('l'), s.var('y'), s.label('l'), s.set('x', 'y')), s.set('x'))]
@case('a goto out of a block prunes in the layer of its label', 'f', 'x', 'y', 'l')
def _(s): return [s.fn('f', s.block(s.var('y'), s.goto('l'), s.set('y')), s.var('x'), s.label('l'), s.block(s.var('y'), s.set('x', 'y')))]
@case('a goto in a block has the variables of all layers in scope', 'f', 'x', 'l')
def _(s): return [s.fn('f', s.var('x'), s.block(s.goto('l')), s.label('l'), s.set('x'))]
@case('what is pruned already keeps its first label', 'f', 'x', 'l', 'm')
def _(s): return [s.fn('f', s.goto('l'), s.goto('m'), s.var('x'), s.label('l'), s.label('m'), s.set('x'))]
@case('another label prunes what a use has poisoned', 'f', 'x', 'l', 'm')
def _(s): return [s.fn('f', s.goto('l'), s.goto('m'), s.var('x'), s.label('l'), s.set('x'), s.set('x'), s.label('m'), s.set('x'), s.set('x'))]
@case('a parameter is never skipped, nor is the variable of its name ever used', 'f', 'x', 'l')
def _(s): return [s.fn('f', s.goto('l'), s.var('x'), s.label('l'), s.set('x'), params=[('x', 3)])]
@case('a constant is never skipped, nor is the variable of its name ever used', 'f', 'x', 'l')
def _(s): return [s.fn('f', s.goto('l'), s.var('x'), s.label('l'), s.set('x')), s.const('x')]
@case('a variable whose block has ended is not the one that is skipped', 'f', 'x', 'y', 'l')
def _(s): return [s.fn('f', s.goto('l'), s.block(s.var('x'), s.var('y')), s.var('x'), s.label('l'), s.set('x', 'y'))]
@case('a poisoned duplicate label prunes nothing', 'f', 'x', 'l')
def _(s): return [s.fn('f', s.goto('l'), s.var('x'), s.label('l'), s.set('x'), s.label('l'), s.set('x'))]
@case('the duplicate of a pruned variable does not bring it back', 'f', 'x', 'l')
def _(s): return [s.fn('f', s.goto('l'), s.var('x'), s.label('l'), s.var('x'), s.set('x'))]
@case('a bare declaration in the then branch', 'f', 'x', 'l')
def _(s): return [s.fn('f', s.when(s.var('x')), s.set('x'))]
@case('a bare declaration in the else branch, behind a goto', 'f', 'x', 'l')
def _(s): return [s.fn('f', s.when(s.goto('l'), s.var('x')), s.label('l'), s.set('x'))]
@case('a bare label in the then branch refuses what no walk skips', 'f', 'x', 'l')
def _(s): return [s.fn('f', s.when(s.goto('l')), s.var('x'), s.when(s.label('l'), s.set('x')))]
@case('a bare label in the else branch', 'f', 'x', 'l')
def _(s): return [s.fn('f', s.goto('l'), s.var('x'), s.when(s.set('x'), s.label('l')), s.set('x'))]
@case('a backward goto from the else branch', 'f', 'x', 'l')
def _(s): return [s.fn('f', s.var('x'), s.when(s.label('l'), s.goto('l')), s.set('x'))]
@case('a goto out of a block, over a declaration', 'f', 'x', 'l')
def _(s): return [s.fn('f', s.when(s.block(s.goto('l')), s.block(s.loop())), s.var('x'), s.label('l'), s.set('x'))]
@case('refused uses in dropped arguments and in a dropped declaration are listed', 'f', 'x', 'l', 'g')
def _(s): return [s.fn('f', s.goto('l'), s.var('x'), s.label('l'), s.do('g', 'x'), s.var('x', 'x'), s.set('x', s.call('g', 'x')))]
@case('a use in the operand of a cast whose type is refused is not', 'f', 'x', 'l', 'S')
def _(s): return [s.fn('f', s.goto('l'), s.var('x'), s.label('l'), s.var('l', s.binary(s.cast('S', 'x'), s.cast(s.array(3, 'x'), 'x'))), s.set('x'))]
@case('refused in steps and at all depths of an expression', 'f', 'x', 'l')
def _(s): return [s.fn('f', s.goto('l'), s.var('x'), s.label('l'), cat(1, s.place(), s.list(s.binary('x', 'x')), s.ref('x', s.at('x'), s.dot('x'), s.at('x', 2))))]

# DECLARING
@case('kinds 3, 7 and 8: duplicates are poisoned, take ids and stay declared', 'a', 'b')
def _(s): return [s.const('a'), s.const('a'), s.struct('a'), s.struct('a'), s.fn('a'), s.fnhead('a'), s.const('b')]
@case('a constant, a structure and a function may share a name', 'a')
def _(s): return [s.const('a'), s.struct('a'), s.fn('a')]
@case('kind 4: a variable of the name of a constant, a parameter, an outer variable', 'f', 'a', 'b', 'c')
def _(s): return [s.const('a'), s.fn('f', s.var('a'), s.var('b'), s.var('c'), s.block(s.var('c'), s.set('c')), params=[('b', 3)])]
@case('a use takes the outermost of its name: the constant, the parameter, the outer variable', 'f', 'a', 'b', 'c')
def _(s): return [s.const('a'), s.fn('f', s.var('a'), s.var('b'), s.var('c'), s.block(s.var('c'), s.set('a', s.binary('b', 'c'))), params=[('b', 3)])]
@case('kind 4: its value and type are analysed, ids are given out, then dropped', 'f', 'x', 'y')
def _(s): return [s.fn('f', s.var('x'), s.var('x', s.list('y'), 'y'), s.var('y'))]
@case('a block\'s variables end with it', 'f', 'x')
def _(s): return [s.fn('f', s.block(s.var('x')), s.var('x'), s.set('x'))]
@case('kind 5: parameters of one name, and of a constant\'s', 'f', 'x', 'a')
def _(s): return [s.const('a'), s.fn('f', params=[('x', 3), ('x', 13), ('a', 3)]), s.fnhead('x', params=[('a', 3)])]
@case('kind 6: a member of a constant\'s name has no edge', 'S', 'a')
def _(s): return [s.struct('S', ('a', 'S')), s.const('a')]
@case('kind 9: a variable is not in scope in its own value', 'f', 'x')
def _(s): return [s.fn('f', s.var('x', 'x'))]
@case('kind 9: neither is a function, nor a structure', 'f', 'x', 'S')
def _(s): return [s.struct('S'), s.fn('f', s.set('f', 'S'))]
@case('kind 10: a call of no function, of a variable, of a constant', 'f', 'x', 'c')
def _(s): return [s.const('c', s.call('c')), s.fn('f', s.var('x'), s.do('x'), s.do('c', s.call('x')))]
@case('a call of a later function, of a head, of the first of two', 'f', 'g', 'h')
def _(s): return [s.fn('f', s.do('g'), s.do('h'), s.do('f')), s.fn('g'), s.fnhead('h'), s.fnhead('g')]
@case('a builtin\'s name stays as it came, its arguments do not', 'f', 'x')
def _(s): return [s.fn('f', s.var('x'), s.do('x', 'x', builtin=3), s.set('x', s.call('x', 'x', builtin=1, t='x')))]
@case('kind 11: a structure by kinds 20, 21 and 22', 'f', 'S')
def _(s): return [s.fn('f', params=[(0, cat(20, s.id('S'))), (0, s.word('S')), (0, 'S')])]
@case('kinds 20, 21 and 22 of a structure that is there', 'f', 'S')
def _(s): return [s.fn('f', params=[(0, cat(20, s.id('S'))), (0, s.word('S')), (0, 'S')]), s.struct('S')]
@case('kind 12: a parameter, a member or a variable is no length', 'f', 'x', 'S', 'y')
def _(s): return [s.fn('f', s.var('y', None, s.array(3, 'x')), s.var('S', None, s.array(3, 'y')), params=[('x', s.array(3, 'x'))]), s.struct('S', ('x', s.array(3, 'x')))]
@case('kind 9: an undefined length, and one that is only a structure', 'f', 'x', 'S')
def _(s): return [s.fn('f', s.var('x', None, s.array(3, 'x')), t=s.array(3, 'S')), s.struct('S')]
@case('layer 0 is searched first for a length: the parameter of that name is refused, the constant is found', 'f', 'n')
def _(s): return [s.fn('f', params=[('n', s.array(3, 'n'))], t=s.array(3, 'n')), s.const('n')]
@case('a return type does not see the parameters: kind 9, not 12', 'f', 'n')
def _(s): return [s.fn('f', params=[('n', 3)], t=s.array(3, 'n'))]
@case('neither does a head\'s', 'f', 'n')
def _(s): return [s.fnhead('f', params=[('n', 3)], t=s.array(3, 'n'))]
@case('a structure\'s own type does not see its members', 'S', 'n')
def _(s): return [s.struct('S', ('n', 3), t=s.array(3, 'n'))]
@case('the element is refused before the length', 'f', 'S', 'n')
def _(s): return [s.fn('f', t=s.array('S', 'n'))]
@case('flag 4 for a function named main, not for a head', 'main', 'f')
def _(s): return [s.fn('main', flags=1), s.fn('f')]
@case('a head named main', 'main', 'f')
def _(s): return [s.fnhead('main', flags=2), s.fn('main', flags=0)]
@case('flag 4 that is there already stays', 'main', 'f')
def _(s): return [s.fn('main', flags=5), s.fn('f', flags=4)]
@case('a cast whose type is refused gives out no id for its operand', 'f', 'S')
def _(s): return [s.fn('f', s.var('S', s.cast('S', s.list(None))), s.var('f', s.list(None)))]
@case('sizes and casts that stand', 'f', 'S', 'x')
def _(s): return [s.struct('S'), s.fn('f', s.var('x', s.cast(pointer(s.ty('S')), s.size(NAMELESS))), s.set('x', s.bits('S', s.length('x'))))]
@case('members and steps keep their names, a structural literal\'s type is analysed last', 'f', 'S', 'x')
def _(s): return [s.fn('f', s.var('x', s.make('S', ('x', 'x'), ('S', None))), s.var('S', s.make('x'))), s.struct('S')]
@case('ids: predeclared, then parameters, arrays inside first, return values last', 'f', 'x', 'c')
def _(s): return [s.fn('f', s.var('c', s.list(s.list(None), None)), params=[('x', 3)]), s.const('x', s.list())]

# CONTAINERS
@case('kind 14 in a value, by SizeOf', 'a', 'S')
def _(s): return [s.const('a', s.size('S')), s.struct('S', ('a', 3), ('S', s.array(3, 'a')))]
@case('kind 14 of a constant that holds itself', 'a')
def _(s): return [s.const('a', s.binary('a', 'a'))]
@case('kind 14 in a structural literal: at the member, then its type is Poisoned', 'a', 'S')
def _(s): return [s.const('a', s.make('S', ('S', 'a'))), s.struct('S')]
@case('kind 14 in the type of a constant', 'a')
def _(s): return [s.const('a', None, s.array(s.array(3, 'a'), 'a'))]
@case('kind 15, then Poisoned, through arrays', 'S', 'a', 'b', 'c')
def _(s): return [s.struct('S', ('a', cat(16, s.ty('S'))), ('b', cat(14, s.ty('S'), 2)), ('c', cat(19, cat(18, s.ty('S')))))]
@case('kind 15 at the second structure of a ring; the first keeps its member', 'S', 'T', 'a')
def _(s): return [s.struct('S', ('a', 'T')), s.struct('T', ('a', 'S'))]
@case('kind 16: a member\'s length', 'S', 'c', 'm')
def _(s): return [s.struct('S', ('m', s.array(3, 'c'))), s.const('c', s.size('S'))]
@case('kind 16 names a constant that does not lie on the ring', 'S', 'd', 'm', 'n')
def _(s): return [s.const('d'), s.struct('S', ('m', s.array(3, 'd')), ('n', 'S'))]
@case('kind 16 names the first constant in predeclaration order', 'S', 'c', 'd', 'm')
def _(s): return [s.const('d'), s.const('c', s.size('S')), s.struct('S', ('m', s.array(s.array(3, 'd'), 'c')))]
@case('a pointer or a view holds nothing, but in a value it does', 'S', 'a', 'b', 'c', 'd')
def _(s): return [s.struct('S', ('a', pointer(s.ty('S'))), ('b', cat(25, s.ty('S')))), s.const('c', s.size(cat(25, s.ty('S')))), s.const('d', s.size(pointer(s.array(3, 'c'))))]
@case('depths 0 to 3', 'a', 'b', 'c', 'S')
def _(s): return [s.const('a', 'b'), s.const('b', 'c'), s.const('c'), s.struct('S', ('S', s.array(3, 'a')))]
@case('what holds a ring is poisoned, what the ring holds is not', 'a', 'b', 'c', 'd')
def _(s): return [s.const('a', 'b'), s.const('b', s.binary('c', 'd')), s.const('c', 'b'), s.const('d')]
@case('a later edge is carried to all that hold the container', 'a', 'b', 'c')
def _(s): return [s.const('a', 'b'), s.const('b', 'c'), s.const('c', 'a')]
@case('a ring is told where it closes: what holds it learns nothing of it, so d is not told a second time', 'a', 'x', 'b', 'd')
def _(s): return [s.const('a', 'b'), s.const('x', s.binary('d', 'b')), s.const('b', 'x'), s.const('d', 'a')]
@case('a duplicate constant is not analysed: no edge, no depth', 'a', 'b')
def _(s): return [s.const('a'), s.const('a', 'b'), s.const('b', 'a')]
@case('a use in a constant is an edge in arrays, steps, arguments and casts', 'a', 'b', 'f')
def _(s): return [s.const('a', s.list(s.call('f', s.cast(3, s.length('b'))))), s.const('b', s.call('b', 'a')), s.fnhead('f')]
@case('a member without a name has no edge', 'S', 'a')
def _(s): return [s.struct('S', (num(0), 'S')), s.const('a', None, 'S')]

# WHAT STAYS
@case('poisons and carried types stay as they came', 'f', 'S')
def _(s): return [s.fn('f', cat(8, 17, 300), s.var('S', cat(15, 9, 0, s.place()), None), s.set(num(0), cat(4, bytes(range(16)), s.place(), s.carried('S'))),
                       params=[(cat(16, 0, 1, 1, 2, 3), 3)]), cat(5, 13, 0, 1, 4, 5, 6, 7), cat(4, 3, b'\0\xff\x80', s.place())]
@case('a poisoned body: no label is looked at, no id is given', 'f', 'g')
def _(s): return [cat(1, s.head(0), s.id('f'), lst(), err(1, 0, 1, 2), err(14, 0, 3)), s.fn('g')]
@case('large places, ids and operators', 'f', 'x')
def _(s): return [s.fn('f', cat(0, 2 ** 32 - 1, 0, 0, ident(1, 128, 2 ** 32 - 1, 1)), cat(1, 16384, cat(0, 2 ** 32 - 1, 300, 70000, boolean(0, 127), boolean(1, 128)), cat(255, 2 ** 21, 2 ** 28, ok(ident(1, 2 ** 28 - 1, 5, 1)), lst())))]

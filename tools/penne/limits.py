# Refusals 3 to 10 at their edges, number and place by hand from the words of docs/FORM.md. tables.py writes them to crates/vectors/proofs/Limits.antt.
from trees import *

NAMES = names('a')
DECL = len(NAMES) + 1                          # where the first declaration stands
VALUE = DECL + 4 + 4                           # where a constant's value stands: kind, flags, 2p, identifier
def const(v, t=ok(VOID), depth=0): return cat(NAMES, 1, 0, 0, 1, 1, ident(0, 1), v, t, depth)
STMT = DECL + 11                               # where a function's first statement stands, in fn
def fn(t): return cat(NAMES, 1, function(ident(0, 1), ok(body([t], ident(0, 1))), ok(VOID)), 0)
def parens(n, x): return cat(8, 1) * n + x
def blocks(n, t): return cat(7, 1, 1) * n + t
def slices(n, t): return num(16) * n + t
TRUE = boolean(1, 1)

# what, bytes, number (0: it passes), place
whole = [
    ('FF FF FF FF 0F is 2^32 - 1', b'\xff\xff\xff\xff\x0f', 8, 0), ('FF FF FF FF 10', b'\xff\xff\xff\xff\x10', 4, 0), ('80 00', b'\x80\0', 4, 0), ('80 at the end', b'\x80', 3, 0),
    ('nothing', b'', 3, 0), ('four groups and the end', b'\xff' * 4, 3, 0), ('five groups not enough, at the end', b'\x80' * 5, 4, 0), ('an empty last group', b'\xff\x80\0', 4, 0),
    ('1,025 names', num(1025), 8, 0), ('1,024 names, none there', num(1024), 3, 2), ('an empty name', b'\1\0', 6, 1), ('a name of 65 bytes', cat(1, 65), 6, 1), ('of 64 bytes', cat(1, 64, bytes(range(64)), 0), 0, 0),
    ('a name past the end', b'\1\5a', 3, 2), ('equal names', b'\2\1a\1a\0', 6, 4), ('equal names, the second past the end', b'\2\1a\1', 3, 4), ('a name that begins another', b'\2\1a\2ab\0', 0, 0),
    ('2^32 - 1 declarations, none there', b'\0\xff\xff\xff\xff\x0f', 3, 6), ('bytes left over', b'\0\0\1\2', 10, 2), ('a depth that is not 0', const(TRUE, depth=1), 5, len(const(TRUE)) - 1), ('no depth', const(TRUE)[:-1], 3, len(const(TRUE)) - 1),
    ('declaration 6', cat(NAMES, 1, 6), 5, DECL), ('flags 31', const(TRUE).replace(b'\0\0\1\1', b'\0\x1f\1\1', 1), 0, 0), ('flags 32', cat(NAMES, 1, 0, 32), 5, DECL + 1), ('name number 1', cat(NAMES, 1, 0, 0, 1, 1, 1), 5, DECL + 4),
    ('authority 2', cat(NAMES, 1, 0, 0, 1, 1, 0, 1, 1, 2), 5, DECL + 7), ('maybe 2', const(TRUE, num(2)), 5, VALUE + 3), ('option 2', const(cat(9, 2)), 5, VALUE + 1), ('boolean 2', const(boolean(2, 1)), 5, VALUE + 1),
    ('address depth 255', const(cat(9, 0, 255, 1, 1, err(0), lst())), 0, 0), ('address depth 256', const(cat(9, 0, 256)), 5, VALUE + 2), ('endless 3', const(cat(9, 0, 0, 1, 1, err(0), 1, 0, 3)), 5, VALUE + 9), ('step 2', const(cat(9, 0, 0, 1, 1, err(0), 1, 2)), 5, VALUE + 8),
    ('poison 18', const(cat(15, 18)), 5, VALUE + 1), ("a name number in a poison", const(cat(15, 13, 0, 1)), 5, VALUE + 3), ('expression 16', const(num(16)), 5, VALUE), ('type 26', const(TRUE, ok(26)), 5, VALUE + 4), ('statement 9', fn(num(9)), 5, STMT),
    ('fifteen bytes of an integer', const(cat(3, bytes(15)))[:VALUE + 16], 3, VALUE + 1), ("a string's bytes", const(cat(5, 4, b'abc'))[:VALUE + 5], 3, VALUE + 2), ("an import's bytes", cat(0, 1, 4, 9, b'abc'), 3, 4),
    ('expressions to nesting 64', const(parens(62, TRUE)), 0, 0), ('to nesting 65', const(parens(63, TRUE)), 7, VALUE + 126), ('an unknown one there', const(parens(63, num(16))), 5, VALUE + 126), ('the end there', const(parens(63, b''))[:VALUE + 126], 3, VALUE + 126),
    ('a reference at 65', const(parens(62, cat(9, 0, 0, 1, 1, err(0), lst()))), 7, VALUE + 126), ('a step at 65', const(parens(61, cat(9, 0, 0, 1, 1, err(0), lst(cat(1, ident(0, 1), 0))))), 7, VALUE + 122 + 8), ('a carried type at 65', const(parens(62, cat(9, opt(ok(3))))), 7, VALUE + 124 + 3),
    ('an address depth of 256 there', const(parens(62, cat(9, 0, 256))), 5, VALUE + 126), ('a step 2 there', const(parens(61, cat(9, 0, 0, 1, 1, err(0), lst(num(2))))), 5, VALUE + 122 + 8), ('a type 26 there', const(TRUE, ok(slices(63, num(26)))), 5, VALUE + 4 + 63),
    ('statements to nesting 64', fn(blocks(62, cat(3, 1))), 0, 0), ('to nesting 65', fn(blocks(63, cat(3, 1))), 7, STMT + 189), ('a statement 9 there', fn(blocks(63, num(9))), 5, STMT + 189), ('an expression at 65', fn(blocks(62, cat(2, ident(0, 1), 1, lst(TRUE)))), 7, STMT + 186 + 7),
    ('a branch at 65', fn(blocks(61, cond(1, TRUE, TRUE, cat(3, 1), cat(1, blocks(1, cat(3, 1)))))), 7, STMT + 183 + 5 + 6 + 2 + 2 + 3),
    ('types to nesting 64', const(TRUE, ok(slices(62, VOID))), 0, 0), ('to nesting 65', const(TRUE, ok(slices(63, VOID))), 7, VALUE + 4 + 63), ('kind 23 there', const(TRUE, ok(slices(63, NAMELESS))), 7, VALUE + 4 + 63),
    ("kind 23 in a constant's type", const(TRUE, ok(NAMELESS)), 9, VALUE + 4), ('through kinds 14 to 19', const(TRUE, ok(bytes([14, 15, 16, 17, 18, 19]), NAMELESS)), 9, VALUE + 10), ('but not through a pointer', const(TRUE, ok(16, 24, 23)), 0, 0),
    ('nor a view', const(TRUE, ok(25, 23)), 0, 0), ('nor in a value', const(sizeof(1, NAMELESS)), 0, 0), ("in a member's type", cat(NAMES, 1, structure(ident(0, 1), [member(1, err(0), ok(16, 23))], ok(0)), 0), 9, DECL + 3 + 4 + 1 + 3 + 2),
    ("but not in a structure's own", cat(NAMES, 1, structure(ident(0, 1), [], ok(16, 23)), 0), 0, 0), ("nor in a parameter's", cat(NAMES, 1, function(ident(0, 1), err(0), ok(23), params=lst(member(1, err(0), ok(23)))), 0), 0, 0),
]

# Row 8's limits, at a cursor that has counted so many already: each largest count passes, one more does not.
LOOP, LABEL, DECLARE = cat(3, 1), label(ident(0, 1), 1), declare(1, ident(0, 1))
PARAM, HEAD, STRUCT = cat(1, err(0), err(0)), cat(2, 0, 1, 1, ident(0, 2), lst(), ok(0)), structure(ident(0, 1), [], ok(0))
CONST, FUNCTION = const(TRUE)[DECL:-1], function(ident(0, 1), err(0), ok(0))
edges = [('read_decl', STRUCT, 'containers', 128), ('read_decl', CONST, 'containers', 128), ('read_decl', HEAD, 'functions', 256), ('read_decl', FUNCTION, 'functions', 256),
         ('read_param 63 true', PARAM, 'entries', 1024), ('read_param 63 false', PARAM, 'entries', 1024), ('read_stmt 63', LABEL, 'entries', 1024), ('read_stmt 63', DECLARE, 'entries', 1024),
         ('read_stmt 63', LOOP, 'statements', 2048), ('read_stmt 63', LABEL, 'statements', 2048), ('read_stmt 63', DECLARE, 'statements', 2048)]
parts = [(reader, b, what, most - 1, 0) for reader, b, what, most in edges] + [(reader, b, what, most, 8) for reader, b, what, most in edges]
parts += [('read_stmt 63', LOOP, 'entries', 1024, 0), ('read_decl', cat(4, 0, 1), 'containers', 128, 0), ('read_decl', cat(5, 0), 'functions', 256, 0),      # these do not count there
          ('read_stmt 0', LOOP, 'statements', 2048, 7), ('read_param 63 true', b'\x80\0', 'entries', 1024, 4), ('read_stmt 63', num(9), 'statements', 2048, 5)]  # and these come first

def counts(what, n): return 'record { %s }' % '; '.join('%s = %d' % (w, n if w == what else 0) for w in ('containers', 'functions', 'entries', 'statements'))

def text():
    out = """-- Refusals 3 to 10 at their edges, numbers and places by hand from docs/FORM.md. Written by tools/penne/tables.py.
use Prim.Native.Nat.{ℕ}
use mathlib.Core.Bool.{true, false}
use mathlib.Core.Path.{◌≡◌, refl}
use mathlib.Core.List.{List, [], ◌∷◌, map}
use Rattle.penne.specs.Reader.{Counts, Cur, Got, got, refused}
use Rattle.penne.specs.Read.{decode, incoming, read_decl, read_param, read_stmt}
use Rattle.penne.proofs.Run.{run}

-- number and place of a refusal, 0 and 0 for none
refusal_of : {A : Type 0} → Got A → ℕ × ℕ
refusal_of (got a c) = (0, 0)
refusal_of (refused n p) = (n, p)

-- bytes, number and place
table : List (List ℕ × (ℕ × ℕ))
table =
"""
    for what, b, n, p in whole: out += '    (%s, (%d, %d)) ∷  -- %s\n' % (antt(b), n, p, what)
    out += """    []

refusals : map (λ r. refusal_of (decode incoming r.0)) table ≡ map (λ r. r.1) table
unfolding run table refusal_of
refusals = refl

-- a cursor at 0, with a table of one name, and so much counted
after : Counts → Cur
after k = record { at = 0; names = 1; counts = k }

-- row 8: each largest count passes, one more does not
limits : map (λ r. r.0) limit ≡ map (λ r. (r.1, 0)) limit
"""
    head, claim = out.rsplit('\n-- row 8', 1)
    rows = '\n-- what is read after so much was counted, and the number it is refused by\nlimit : List ((ℕ × ℕ) × ℕ)\nlimit =\n'
    for reader, b, what, n, k in parts: rows += '    (refusal_of (%s (%s) (after (%s))), %d) ∷\n' % (reader, antt(b), counts(what, n), k)
    return head + rows + '    []\n\n-- row 8' + claim + 'unfolding run refusal_of after limit\nlimits = refl\n'

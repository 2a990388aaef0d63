# P1 to P8 of docs/FORM.md, inputs and answers built by hand from its words. tables.py holds the answers against the Rust's and writes crates/penne/proofs/Sheet.antt.
from trees import *

def at(b, i):                                  # where the identifier i stands in b, the only one of its bytes
    assert b.count(i) == 1
    return b.index(i)

rows = []
def row(says, given, answered, skips=()):
    rows.append((says, given, answered, [(at(given, u), at(given, d)) for u, d in skips]))

row('bytes 00 00 answer 00 00', bytes([0, 0]), bytes([0, 0]))

# The page's own bytes. The answer has 72 bytes too: flag 4 and authority 0 at main, label id 1 at goto and label, ids 2 for x and 3 for the return value,
# and the page's two bases. The label's kind 13 has the names x and l, and the places of the use, of x, of the goto and of the label: 6, 3, 2, 4.
SHEET = '03046D61696E0178016C 01010000000001000100 00040402020000020003 00000103000105020400 01040105090000060600 01060000000005050001 05000000000007000000 0000'
BASES = '01 0D 01 02 06 03 02 04', '01 00'
row('the bench sheet; its bases answer %s and %s' % BASES, bytes.fromhex(SHEET),
    tree(['main', 'x', 'l'],
         [cat(1, 4, 0, 0, ident(0, 1, 1, 0), lst(), ok(body([
             goto(ident(2, 2, 1, 0), 2),
             declare(3, ident(1, 3, 2, 1)),
             label(ident(2, 4, 1, 1), 4),
             assign(5, cat(9, 0, 0, 6, 6, bytes.fromhex(BASES[0]), lst()), cat(0, 5, 5, bytes.fromhex(BASES[1]), lst()))],
             ident(0, 7, 3, 0))), ok(VOID))], [0]))
rows[-1][3].extend([(50, 32), (59, 32)])       # "skip 50 32", "skip 59 32"

# A and B take the ids 1 and 2; kind 14 has B's name and B's place
row("constants A = B, B = A: kind 14 naming B stands for the base in B's value, both depths poisoned",
    tree(['A', 'B'], [constant(ident(0, 4), deref(5, ok(ident(1, 5))), ok(INT32)),
                      constant(ident(1, 6), deref(7, ok(ident(0, 7))), ok(INT32))], [0, 0]),
    tree(['A', 'B'], [constant(ident(0, 4, 1, 1), deref(5, ok(ident(1, 5, 2, 0))), ok(INT32)),
                      constant(ident(1, 6, 2, 1), deref(7, err(14, 1, 6)), ok(INT32))], [1, 1]))

# P and C take the ids 1 and 2 before the member p takes 3
row('structure P with a pointer to P, constant of SizeOf pointer to P: depths 0, 1',
    tree(['P', 'p', 'C'], [structure(ident(0, 2), [member(3, ok(ident(1, 4)), ok(pointer(unresolved(ident(0, 5)))))], ok(NAMELESS)),
                           constant(ident(2, 6), sizeof(7, pointer(unresolved(ident(0, 8)))), ok(USIZE))], [0, 0]),
    tree(['P', 'p', 'C'], [structure(ident(0, 2, 1, 1), [member(3, ok(ident(1, 4, 3, 1)), ok(pointer(unresolved(ident(0, 5, 1, 0)))))], ok(NAMELESS)),
                           constant(ident(2, 6, 2, 1), sizeof(7, pointer(unresolved(ident(0, 8, 1, 0)))), ok(USIZE))], [2, 3]))

# kind 15 has Q's name, Q's place and the place of a
row('Q with members a and b of type Q: kind 15, then Poisoned',
    tree(['Q', 'a', 'b'], [structure(ident(0, 2), [member(3, ok(ident(1, 4)), ok(unresolved(ident(0, 5)))),
                                                   member(6, ok(ident(2, 7)), ok(unresolved(ident(0, 8))))], ok(NAMELESS))], [0]),
    tree(['Q', 'a', 'b'], [structure(ident(0, 2, 1, 1), [member(3, ok(ident(1, 4, 2, 1)), err(15, 0, 2, 4)),
                                                         member(6, ok(ident(2, 7, 3, 1)), err(0))], ok(NAMELESS))], [1]))

# kind 6 has the name a, its own place and the earlier one's
row('members a: Int32 and a: own type: kind 6, type kept, depth 0',
    tree(['Q', 'a'], [structure(ident(0, 2), [member(3, ok(ident(1, 4)), ok(INT32)),
                                              member(5, ok(ident(1, 6)), ok(unresolved(ident(0, 7))))], ok(NAMELESS))], [0]),
    tree(['Q', 'a'], [structure(ident(0, 2, 1, 1), [member(3, ok(ident(1, 4, 2, 1)), ok(INT32)),
                                                    member(5, err(6, 1, 6, 4), ok(unresolved(ident(0, 7, 1, 0))))], ok(NAMELESS))], [2]))

# labels are visited last to first, so m takes the id 1 and l the id 2; f, x and the return value take 1, 2, 3
def use(p, base): return assign(p, boolean(1, p), reference(p + 1, base))
row('gotos l and m, then x, l, use, m, use: kind 13 twice',
    tree(['f', 'x', 'l', 'm'], [function(ident(0, 2), ok(body([
        goto(ident(2, 3), 4), goto(ident(3, 5), 6), declare(9, ident(1, 7)),
        label(ident(2, 8), 9), use(10, ok(ident(1, 11))),
        label(ident(3, 12), 13), use(14, ok(ident(1, 15)))], ident(0, 16))), ok(VOID))], [0]),
    tree(['f', 'x', 'l', 'm'], [function(ident(0, 2, 1, 0), ok(body([
        goto(ident(2, 3, 2, 0), 4), goto(ident(3, 5, 1, 0), 6), declare(9, ident(1, 7, 2, 1)),
        label(ident(2, 8, 2, 1), 9), use(10, err(13, 1, 2, 11, 7, 4, 8)),
        label(ident(3, 12, 1, 1), 13), use(14, err(13, 1, 3, 15, 7, 6, 12))], ident(0, 16, 3, 0))), ok(VOID))], [0]),
    [(ident(1, 11), ident(1, 7)), (ident(1, 15), ident(1, 7))])

def branches(i, j): return cond(3, boolean(1, 3), boolean(1, 3), block(4, label(i, 5)), cat(6, block(7, label(j, 8))))
row('label l in both block branches: ids 1 then 2',
    tree(['f', 'l'], [function(ident(0, 2), ok(body([branches(ident(1, 5), ident(1, 8))], ident(0, 9))), ok(VOID))], [0]),
    tree(['f', 'l'], [function(ident(0, 2, 1, 0), ok(body([branches(ident(1, 5, 1, 1), ident(1, 8, 2, 1))], ident(0, 9, 2, 0))), ok(VOID))], [0]))

def text():
    out = '''-- P1 to P8 (docs/FORM.md), one table under one claim; inputs and answers are built by hand from that page's words in tools/penne/sheet.py. Written by tools/penne/tables.py.
use Prim.Native.Nat.{ℕ}
use mathlib.Core.Path.{◌≡◌, refl}
use mathlib.Core.List.{List, [], ◌∷◌, map}
use Rattle.penne.specs.Scoper.{scoped, outcome, answer}
use Rattle.penne.proofs.Run.{run}

-- a tree, the answered tree, the list's records
pub table : List (List ℕ × List ℕ × List (ℕ × ℕ))
table =
'''
    for k, (says, given, answered, skips) in enumerate(rows):
        out += '    -- P%d: %s\n    (\n      %s,\n      %s,\n      %s,\n    ) ∷\n' % (k + 1, says, antt(given), antt(answered), pairs(skips))
    return out + '''    []

-- each tree, with the room that the listing program lends, is answered so, and all that was lent besides is zero
pub p1_to_p8 : map (λ r. scoped r.0 65535 16384 16384) table ≡ map (λ r. outcome 65535 16384 16384 (answer r.1 r.2)) table
unfolding run table
p1_to_p8 = refl
'''

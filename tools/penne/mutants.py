# Wrong definitions, each of which the tables of crates/penne/proofs and crates/vectors/proofs have to refuse: file of specs/, what stands there, what is written instead.
# Each is tried in a copy of the definitions that has these tables and no law beside them. At the root of the repository, about half a minute each:
#   python3 tools/penne/mutants.py [NUMBER ..]
import os, re, shutil, subprocess, sys, tempfile
CRATE = 'crates/penne'
TABLES = ['Sheet', 'Vectors', 'Limits', 'Rooms']
BESIDES = ['Reach', 'Checks', 'Run']  # what the tables compute with

MUTANTS = [
    ('Labels', 'declare_label i p (some j) = bad_stmt (poison 1 (i.name ∷ []) (j.place ∷ i.place ∷ []))',
     'declare_label i p (some j) = bad_stmt (poison 1 (i.name ∷ []) (i.place ∷ j.place ∷ []))'),
    ('Labels', 'resolution_id = l.resolution_id + 1 }',
     'resolution_id = l.resolution_id }'),
    ('Labels', "    let (t', l₁) = labels t l in\n    let (e', l₂) = labels e l₁ in\n    (if_else p op q r x y t' e', l₂)",
     "    let (e', l₁) = labels e l in\n    let (t', l₂) = labels t l₁ in\n    (if_else p op q r x y t' e', l₂)"),
    ('Labels', "    let (ts', l₁) = labels ts l in\n    let (t', l₂) = labels t l₁ in\n    (cons' t' ts', l₂)",
     "    let (t', l₁) = labels t l in\n    let (ts', l₂) = labels ts l₁ in\n    (cons' t' ts', l₂)"),
    ('Labels', 'pop_scope before after = record { label_stack = before.label_stack;',
     'pop_scope before after = record { label_stack = after.label_stack;'),
    ('Labels', 'goto (resolved i j.id 0) p',
     'goto (resolved i j.id 1) p'),
    ('Labels', 'label_stack = l.label_stack ++ (i ∷ [])',
     'label_stack = i ∷ l.label_stack'),
    ('Pruning', 'u.intersection_of_variables; location_of_goto = u.location_of_goto } ∷ us',
     'u.intersection_of_variables; location_of_goto = p } ∷ us'),
    ('Pruning', '[ true ↦ d ∷ ds | false ↦ d ∷ prune c ds ]',
     '[ true ↦ c ∷ ds | false ↦ d ∷ prune c ds ]'),
    ('Pruning', 'fate_by (some c) b = pruned c',
     'fate_by (some c) true = poisoned\nfate_by (some c) false = pruned c'),
    ('Pruning', 'pruned_variables = keep (λ c. not (eqb c.variable id)) s.pruned_variables;',
     'pruned_variables = s.pruned_variables;'),
    ('Pruning', 'poisoned_variables = id ∷ s.poisoned_variables;',
     'poisoned_variables = s.poisoned_variables;'),
    ('Containers', 'constant_in_cycle cycle cs = first (λ i. is_in i.id cycle) (constants cs)',
     'constant_in_cycle cycle cs = first (λ i. is_in i.id cycle) (structures cs)'),
    ('Containers', '(ok x, join_where (λ o. is_in c.id o.contained_ids) ids cs)',
     '(ok x, cs)'),
    ('Containers', 'add_ids c m x ids true cs = (err (poison 0 [] []), cs)',
     'add_ids c m x ids true cs = (ok x, cs)'),
    ('Containers', 'added_ids c m x ids true cs = (err (cyclical c m cs), cs)',
     'added_ids c m x ids true cs = (err (cyclical c m cs), join_where (λ o. is_in c.id o.contained_ids) ids cs)'),
    ('Containers', '(c.place ∷ m.place ∷ k.place ∷ [])',
     '(c.place ∷ k.place ∷ m.place ∷ [])'),
    ('Containers', '(c.name ∷ k.name ∷ [])',
     '(k.name ∷ c.name ∷ [])'),
    ('Containers', 'found_container c m (pointer t) = ret (ok (pointer t))',
     "found_container c m (pointer t) = found_container c m t >>? λ t'. ret (ok (pointer t'))"),
    ('Containers', 'found_container c m (view t) = ret (ok (view t))',
     "found_container c m (view t) = found_container c m t >>? λ t'. ret (ok (view t'))"),
    ('Containers', "found_container c m t >>? λ t'. found_container_1 c m i >>? λ i'. ret (ok (array_with_named_length t' i'))",
     "found_container_1 c m i >>? λ i'. found_container c m t >>? λ t'. ret (ok (array_with_named_length t' i'))"),
    ('Containers', 'true ↦ 2 + d |',
     'true ↦ 3 + d |'),
    ('Containers', 'let ids = union (contained_ids_of x.id s.containers) (x.id ∷ []) in',
     'let ids = x.id ∷ [] in'),
    ('Containers', 'contained_ids = minus c.contained_ids ids;',
     'contained_ids = [];'),
    ('Containers', 'depth = elim c.depth [ zero ↦ 1 |',
     'depth = elim c.depth [ zero ↦ 0 |'),
    ('Scopes', 'variables a = a.variable_stack.constants ++ a.variable_stack.locals',
     'variables a = a.variable_stack.locals ++ a.variable_stack.constants'),
    ('Scopes', "unless_duplicate k i' (first_named i.name (variables a))",
     "unless_duplicate k i' (first_named i.name (last_layer a))"),
    ('Scopes', "unless_duplicate 3 i' (first_named i.name (constants a.containment.containers))",
     "unless_duplicate 3 i' (first_named i.name (structures a.containment.containers))"),
    ('Scopes', 'use_constant_at i none (some j) = ret (err (poison 12 (i.name ∷ []) (i.place ∷ j.place ∷ [])))',
     'use_constant_at i none (some j) = ret (undefined 9 i)'),
    ('Scopes', 'use_struct_at i (some j) = use_as i j',
     'use_struct_at i (some j) = ret (ok (resolved i j.id 0))'),
    ('Scopes', '(i.place ∷ j.place ∷ c.location_of_goto ∷ c.label.place ∷ [])',
     '(i.place ∷ j.place ∷ c.label.place ∷ c.location_of_goto ∷ [])'),
    ('Scopes', 'authoritative a i = resolved i a.resolution_id 1',
     'authoritative a i = resolved i a.resolution_id i.auth'),
    ('Scopes', 'unless_duplicate k i (some j) = err (poison k (i.name ∷ []) (i.place ∷ j.place ∷ []))',
     'unless_duplicate k i (some j) = err (poison k (i.name ∷ []) (j.place ∷ i.place ∷ []))'),
    ('Scopes', 'use_function_at i (some j) = ok (resolved i j.id 0)',
     'use_function_at i (some j) = ok (resolved i j.id i.auth)'),
    ('Scopes', '(map (λ x. x.id) (variables a))',
     '(map (λ x. x.id) (last_layer a))'),
    ('Scopes', 'use_variable_by i j poisoned = λ a. (err (poison 0 [] []), with_prunings a (list_skip i j a.prunings))',
     'use_variable_by i j poisoned = λ a. (err (poison 0 [] []), a)'),
    ('Variables', "in_new_scope (analyze_node es) >>= λ es'. create_anonymous_resolution_id >>= λ i'. ret (array_literal p c es' i')",
     "create_anonymous_resolution_id >>= λ i'. in_new_scope (analyze_node es) >>= λ es'. ret (array_literal p c es' i')"),
    ('Variables', 'cast_to p q m (err z) = ret (bad_expr z)',
     'cast_to p q m (err z) = m >>= λ x. ret (bad_expr z)'),
    ('Variables', "analyze_option analyze_node v >>= λ v'. analyze_option analyze_maybe_type t >>= λ t'. declare_variable 4 i >>= λ i'. ret (declaration_of p v' t' i')",
     "declare_variable 4 i >>= λ i'. analyze_option analyze_node v >>= λ v'. analyze_option analyze_maybe_type t >>= λ t'. ret (declaration_of p v' t' i')"),
    ('Variables', "analyze_option analyze_node v >>= λ v'. analyze_option analyze_maybe_type t >>= λ t'. declare_variable 4 i >>= λ i'. ret (declaration_of p v' t' i')",
     "analyze_option analyze_node v >>= λ v'. declare_variable 4 i >>= λ i'. analyze_option analyze_maybe_type t >>= λ t'. ret (declaration_of p v' t' i')"),
    ('Variables', "analyze_stm (assignment p v r) = analyze_node v >>= λ v'. analyze_node r >>= λ r'.",
     "analyze_stm (assignment p v r) = analyze_node r >>= λ r'. analyze_node v >>= λ v'."),
    ('Variables', "analyze_node x >>= λ x'. analyze_node y >>= λ y'. ret (binary op p q x' y')",
     "analyze_node y >>= λ y'. analyze_node x >>= λ x'. ret (binary op p q x' y')"),
    ('Variables', "analyze_base b >>= λ b'. analyze_node ts >>= λ ts'. ret (reference d p q b' ts')",
     "analyze_node ts >>= λ ts'. analyze_base b >>= λ b'. ret (reference d p q b' ts')"),
    ('Variables', "analyze_stm t >>= λ t'. analyze_stm e >>= λ e'. ret (if_else",
     "analyze_stm e >>= λ e'. analyze_stm t >>= λ t'. ret (if_else"),
    ('Variables', '  i ← declare_maybe k x.ident\n  t ← analyze_maybe_type x.type',
     '  t ← analyze_maybe_type x.type\n  i ← declare_maybe k x.ident'),
    ('Variables', 'analyze_wellfoundedness c (err z) t = ret t',
     'analyze_wellfoundedness c (err z) t = found_maybe c none t'),
    ('Variables', 'use_called i (suc b) = ret (ok i)',
     'use_called i (suc b) = use_function i'),
    ('Variables', "ret (function_head f p q i ps t')",
     "ret (function_head (with_main true f) p q i ps t')"),
    ('Variables', 'with_main true f = elim (eqb (f / 4 % 2) 0) [ true ↦ f + 4 | false ↦ f ]',
     'with_main true f = f + 4'),
    ('Variables', "  t'' ← found_maybe i none t'\n  ret (constant f p q i x' t'')",
     "  ret (constant f p q i x' t')"),
    ('Variables', "(x', in_constexpr_of none a')",
     "(x', a')"),
    ('Variables', "analyze_node ms >>= λ ms'. analyze_maybe_type c >>= λ c'. ret (structural p ms' c')",
     "analyze_maybe_type c >>= λ c'. analyze_node ms >>= λ ms'. ret (structural p ms' c')"),
    ('Variables', "  b' ← in_new_scope (analyze_in_body b)\n  i ← create_anonymous_resolution_id",
     "  i ← create_anonymous_resolution_id\n  b' ← in_new_scope (analyze_in_body b)"),
    ('Variables', 'm ← analyze_param 6 x',
     'm ← analyze_param 5 x'),
    ('Variables', "  r ← in_new_scope (analyze_params_and_body ps b)\n  function_of names f p q r.0 r.1 t i'",
     "  in_new_scope (analyze_params_and_body ps b >>= λ r. function_of names f p q r.0 r.1 t i')"),
    ('Variables', "  ps' ← in_new_scope (in_turn (analyze_param 5) ps)\n  function_head_of f p q ps' t i'",
     "  in_new_scope (in_turn (analyze_param 5) ps >>= λ ps'. function_head_of f p q ps' t i')"),
    ('Variables', "  ms' ← in_new_scope (in_turn (analyze_member i) ms)\n  t' ← analyze_maybe_type t\n  ret (structure f p i ms' t')",
     "  in_new_scope (in_turn (analyze_member i) ms >>= λ ms'. analyze_maybe_type t >>= λ t'. ret (structure f p i ms' t'))"),
    ('Variables', '  v ← analyze_option analyze_node b.value\n',
     '  v ← ret b.value\n'),
    ('Variables', 'analyze_stm (block p ts) = in_new_scope (analyze_stm ts) >>=',
     'analyze_stm (block p ts) = analyze_stm ts >>='),
    ('Variables', "analyze_type (array_with_named_length t i) = analyze_type t >>? λ t'. use_constant i >>? λ i'.",
     "analyze_type (array_with_named_length t i) = use_constant i >>? λ i'. analyze_type t >>? λ t'."),
    ('Variables', "b'.value; result = resolved b.result i 0 }",
     "b'.value; result = resolved b.result i 1 }"),
    ('Variables', "  ds' ← in_turn predeclare ds\n  in_turn (analyze_decl names) ds'",
     '  in_turn (λ d. predeclare d >>= analyze_decl names) ds'),
    ('Read', 'ty_of (read_ty d own) (read_ty d false) n',
     'ty_of (read_ty d own) (read_ty d own) n'),
    ('Read', 'read_structure d = do\n  f ← below 32\n  p ← place\n  i ← ident\n  ms ← listed (read_param d true)\n  t ← maybe (read_ty d false)',
     'read_structure d = do\n  f ← below 32\n  p ← place\n  i ← ident\n  ms ← listed (read_param d true)\n  t ← maybe (read_ty d true)'),
    ('Read', 'counting decl_counts decl_head >>= decl_of 63',
     'counting decl_counts decl_head >>= decl_of 64'),
    ('Read', 'read_ty zero own = too_deep (below 26)',
     'read_ty zero own = too_deep num'),
    ('Reader', 'leb a.entries 1024',
     'leb a.entries 1025'),
    ('Reader', 'leb a.containers 128',
     'leb a.containers 129'),
    ('Scoper', 'elim (ltb w 16384)',
     'elim (ltb w 16383)'),
    ('Scoper', 'depth_or max (suc zero) = max',
     'depth_or max (suc zero) = 0'),
    ('Scoper', 'ltb 65535 (length s)',
     'ltb 65536 (length s)'),
    ('Walks', 'stands n (array_with_named_length t i) = stands n t && is_in i.name n.constants',
     'stands n (array_with_named_length t i) = stands n t'),
    ('Walks', 'flat_map param_names ps;',
     '[];'),
    ('Walks', '(xs₁, with_scope n₁ n.scope n₁.count)',
     '(xs₁, n₁)'),
    ('Walks', 'not_bare (label i p) = false',
     'not_bare (label i p) = true'),
    ('Walks', 'not_bare (declaration p v t i) = false',
     'not_bare (declaration p v t i) = true'),
]

# These change no answer, with the reason.
SAME = [
    ('Pruning', 'intersection_of_variables = keep (λ x. is_in x here) u.intersection_of_variables;',
     'intersection_of_variables = u.intersection_of_variables;'),  # the set at a label's first goto decides alone: its layer has only grown since
    ('Scopes', 'last_layer a = drop a.variable_stack.layer a.variable_stack.locals',
     'last_layer a = a.variable_stack.locals'),  # outer layers do not grow while an inner one is open
    ('Walks', '(option_uses n v ++ (run n.count ∷ []), declared i n)',
     '(run n.count ∷ option_uses n v, declared i n)'),  # no use in a declaration's own value resolves to it
]

def tried(top, file, old, new):
    """The tables that refuse it; none where it is not refused."""
    path = os.path.join(top, CRATE, 'specs/%s.antt' % file)
    text = open(path).read()
    assert text.count(old) >= 1, (file, old)
    open(path, 'w').write(text.replace(old, new))
    r = subprocess.run(['rt', 'check'], cwd=os.path.join(top, CRATE), capture_output=True, text=True)
    open(path, 'w').write(text)
    said = r.stdout + r.stderr
    assert not re.search(r'specs/\w+\.antt:\d+:\d+: error', said), (file, new, said)
    errors = re.findall(r'proofs/(\w+)\.antt:\d+:\d+: error: (.*)', said) if r.returncode else []
    assert all(name in TABLES and re.search('the two types (first )?differ', what) for name, what in errors), (file, new, errors)  # a claim that was read whole, and its two sides differ
    return sorted({name for name, what in errors})

with tempfile.TemporaryDirectory() as top:
    for part in ['src', 'specs']: shutil.copytree(os.path.join(CRATE, part), os.path.join(top, CRATE, part))
    os.makedirs(os.path.join(top, CRATE, 'proofs'))
    for name in BESIDES + TABLES:
        at = [p for p in (CRATE, 'crates/vectors') if os.path.exists('%s/proofs/%s.antt' % (p, name))][0]
        shutil.copy('%s/proofs/%s.antt' % (at, name), os.path.join(top, CRATE, 'proofs'))
    with open(os.path.join(top, CRATE, 'proofs/Lib.antt'), 'w') as f: f.write(''.join('pub mod %s\n' % n for n in BESIDES + TABLES))
    open(os.path.join(top, 'crates.txt'), 'w').write('penne:\n')
    wanted, alive = [int(x) for x in sys.argv[1:]], []
    for n, (file, old, new) in enumerate(MUTANTS):
        if wanted and n not in wanted: continue
        by = tried(top, file, old, new)
        print(n, file, 'refused by ' + ', '.join(by) if by else 'NOT REFUSED: ' + new, flush=True)
        if not by: alive.append(n)
    sys.exit('not refused: %s' % alive if alive else 0)

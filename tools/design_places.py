#!/usr/bin/env python3
"""Counts the places of docs/DESIGN-PASS.md in crates/*/src/*.rt: python3 tools/design_places.py [ROOT] [--list]"""
import collections
import glob
import itertools
import os
import re
import sys

words = [w for w in sys.argv[1:] if not w.startswith('--')]
root = words[0] if words else '.'
listed = '--list' in sys.argv
files = {p: open(p, encoding='utf8').read() for p in sorted(glob.glob(os.path.join(root, 'crates/*/src/*.rt')))}
code = {p: re.sub(r'//[^\n]*', '', t) for p, t in files.items()}


def name(p):
    return p.split('/crates/')[-1].split('/src/')[0] if '/crates/' in p else p.split('crates/')[-1].split('/src/')[0]


def show(title, places):
    print(f'{title}: {len(places)}')
    if listed:
        for place in places:
            print('    ' + place)


# ---- types

enums, structs = [], []
for p, t in code.items():
    for m in re.finditer(r'((?:#\[[^\n]*\]\n)*)(?:pub )?(enum|struct) (\w+)[^{;(]*\{(.*?)\n\}', t, re.S):
        (enums if m.group(2) == 'enum' else structs).append((name(p), m.group(3), m.group(1), m.group(4)))


def variants(body):
    flat = re.sub(r'\([^()]*\)', '()', re.sub(r'\{[^{}]*\}', '{}', body))
    return [v.strip() for v in flat.split(',') if v.strip()]


def shaped(body):
    v = variants(body)
    held = [x for x in v if x.endswith(')') or x.endswith('}')]
    return len(v) <= 3 and held and (len(v) > len(held) or len(v) == 2)


show('1. own enums of the shape of Option or Result', [f'{c} {n}' for c, n, _, b in enums if shaped(b)])
show('1. refusals handed on by a match', [f'{name(p)} {m.group(0).strip()}' for p, t in code.items()
     for m in re.finditer(r'(?:\w+::)?(?:Refused|Fails|Differs|Err)\((\w)\) => (?:\{\s*)?(?:return )?(?:\w+::)?(?:Refused|Fails|Differs|Err)\(\1\)', t)])
show('1. a flag beside its value', [f'{c} {n}' for c, n, _, b in structs if re.search(r': bool', b) and not n.startswith('VmdParsed')])
show('1. numbers that stand for nothing or for a kind, by their comments', [f'{name(p)}:{i + 1} {line.strip()}' for p, t in files.items()
     for i, line in enumerate(t.split('\n')) if re.search(r'//.*(\b0 for none|for none\b|0 where there is neither|for size 0|or 0 for|stands? for none|0 and 0 where|any that is no less)', line)])
show('1. enums without PartialEq', [f'{c} {n}' for c, n, d, b in enums if 'PartialEq' not in d])

# ---- functions

functions = []
for p, t in code.items():
    for m in re.finditer(r'\n[ ]*(pub )?(?:extern "C" )?fn (\w+)(?:<[^\n(]*>)?\(', '\n' + t):
        s, i = '\n' + t, m.end()
        depth, j = 1, i
        while depth:
            depth += {'(': 1, ')': -1}.get(s[j], 0)
            j += 1
        clauses = []
        for line in s[j:].split('\n'):
            if re.fullmatch(r'\s*\{', line) or line.endswith((' {', ';')):
                break
            clauses.append(line)
        arguments = re.sub(r'\s+', ' ', s[i:j - 1])
        parameters = [tuple(x.strip().rstrip(',') for x in a.split(':', 1)) for a in re.split(r',\s*(?=[\w]+\s*:)', arguments) if ':' in a]
        functions.append((name(p), m.group(2), parameters, '\n'.join(clauses)))
print(f'functions: {len(functions)}')

twins = collections.defaultdict(list)
for p, t in code.items():
    s = '\n' + t
    for m in re.finditer(r'\n(?: {4})?(?:pub )?fn (\w+)[^\n]*(?:.*?)\n(?: {4})?\{\n(.*?)\n(?: {4})?\}\n', s, re.S):
        body = m.group(2)
        if body.count('\n') < 5:
            continue
        bare = re.sub(r'\b(bones?|morphs?|cameras?|lights?|self_shadows?|ik_states?|propert(y|ies)|Bone|Morph|Camera|Light|SelfShadow|IkState|Property)\b', 'K', re.sub(r'(?i)(bone|morph|camera|light|self_?shadow|ik_?state|property|properties)', 'K', body))
        bare = re.sub(r'\b\d+\b', 'N', re.sub(r'\s+', ' ', bare))
        bare = re.sub(r'\b[A-Z][A-Z_]+\b', 'C', bare)
        twins[bare].append(f'{name(p)} {m.group(1)}')
show('2. functions whose bodies are one but for a kind, a size or a constant', [' = '.join(v) for v in twins.values() if len(v) > 1])
show('3. loops that count by hand', [f'{name(p)}:{t[:m.start()].count(chr(10)) + 1} {m.group(0).strip()}' for p, t in code.items()
     for m in re.finditer(r'\n[ ]*(while [^\n]*|loop) \{', t)])
show('4. equality, order, conversion written by hand, by their names', [f'{c} {n}' for c, n, _, _ in functions
     if re.fullmatch(r'(same_(?!place$|field$|start$)\w+|key_before|larger|smaller|number|flag_of|flag_to_byte|canonical_flag|inverted_of|canonical_inverted|wide|one_if|exchange|is_digit|is_blank|between|is_between|fits|size_of)', n)])

# ---- facts and parameters

facts = collections.defaultdict(set)
for c, n, _, clauses in functions:
    for clause in re.findall(r'requires(?: \w+)? \{(.*?)\}\n', clauses + '\n', re.S):
        for word in set(re.findall(r'\b([A-Z]\w+) \(?\w', clause)):
            facts[word].add(f'{c} {n}')
show('5. facts that stand in the requires of three functions or more', [f'{w} {len(f)}' for w, f in sorted(facts.items(), key=lambda x: -len(x[1])) if len(f) >= 3])
pairs, single = collections.Counter(), collections.Counter()
for c, n, parameters, _ in functions:
    if n.startswith('vmd_') and c == 'vmd_c':
        continue
    named = sorted(set(parameters))
    single.update(named)
    pairs.update(itertools.combinations(named, 2))
together = [(a, b) for (a, b), k in pairs.items() if k >= 3 and k >= 0.75 * min(single[a], single[b])]
groups = []
for a, b in sorted(together):
    for g in groups:
        if a in g or b in g:
            g.update((a, b))
            break
    else:
        groups.append({a, b})
show('5. groups of parameters that travel together (outside the exports for C)', [', '.join(f'{x}: {y}' for x, y in sorted(g)) for g in groups])
show('6. a fixed buffer or a slice whose length is fixed by a clause', [f'{c} {n}' for c, n, _, clauses in functions if re.search(r'length \w+\.(old|now) ≡ (\d+|length|\w)', clauses.split('ensures')[0])])
show('7. matches that pick a step by a value', [f'{name(p)} match {m.group(1)}' for p, t in code.items() for m in re.finditer(r'match (kind|order|cut|manner|edition)\b', t)])
proofs = glob.glob(os.path.join(root, 'crates/*/proofs/**/*.antt'), recursive=True)
print('8. proof files of functions:', len([p for p in proofs if p.endswith(('Answers.antt', 'Invariants.antt'))]), 'lines:', sum(open(p, encoding='utf8').read().count('\n') for p in proofs))

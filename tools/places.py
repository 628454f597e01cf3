#!/usr/bin/env python3
"""Lists the places of the points 1 to 7 of docs/DESIGN-PASS.md in crates/*/src, and counts them.

Run at the top of a checkout: python3 tools/places.py. A line is POINT file:line name  form: what was found; a place is one
form in one function or type, or in a group of them. The search goes by the text alone, and knows no function by its name."""
import glob
import re
from collections import Counter, defaultdict
from difflib import SequenceMatcher
from itertools import combinations

START = re.compile(r'^(\s*)(?:pub(?:\([\w:]+\))? )?(?:const )?(?:extern "C" )?(fn|struct|enum|const) (\w+)')
NUMBER = re.compile(r'[ui](8|16|32|64|128|size)$')
CODE = re.compile(r'refus|halt|error|fault|failure', re.I)
KEYWORDS = 'if else match let while for return loop mut true false'.split()
NEST = r'\((?:[^;()]|\((?:[^;()]|\([^;()]*\))*\))*\)'

# Forms that one pattern finds in a body: the point, the form, how often it stands at least, the pattern.
FORMS = (
    (1, 'match on numbers', 2, r'(?m)^\s*\d+ =>'),
    (1, 'flag made a number', 1, rf'\w+\((?!\d)(?:[^;(),]|{NEST})+, 1, 0,?\)|\{{ 1 \}} else \{{ 0 \}}'),
    (1, 'number of a refusal written', 1, rf'(?i)\b\w*(?:refus|halt)\w*(?:\(\d+(?=[,)])|: \d+)|\brefused?_\w+\((?:[^;()]|{NEST})*?,\s+\d+(?=,)'),
    (4, 'a checked, saturating, min or max by hand', 1, r'if (\w+) == 0 \{ 0 \} else|'
        r'if ([\w.]+) <=? ([\w.]+) \{\s*(?:\3 - \2|\2|return \2 as \w+;)\s*\}(?: else \{\s*(?:0|\3)\s*\})?'),
    (4, 'a get or a clamped slice by hand', 1, r'if \w+ < (\w+)\.len\(\) \{\s*(?:return )?\w*\(?\1\[\w+\]|'
        r'if \w+\.len\(\) < \w+ \{\s*(?:let [^;]*;\s*)?return (?!\d+;)[^;]*;\s*\}|if \w+\.len\(\) < \w+ \{\s*return 0;'),
    (4, 'copied, changed, given back', 1, r'let mut (\w+) = self;(?:\s*\1\.\w+ = [\w.]+;)+\s*\1\b'),
    (4, 'fields copied one by one', 1, r'(?:\b(\w+)(?:: | = )\w+\.\1[,;]\s*(?:\w+\.)?){2,}'),
    (4, 'equality or copying by a loop or call', 1, r'(\w+)\[(\w+)\] (?:!=|=) \w+\[\2\]|::(?:same|equal|eq)\(.*\)|\w+\[\w+\] = \d+;(?=\s*\w+ \+= 1)'),
    (6, 'a constant array by index', 1, r'\b[A-Z][A-Z_]+\[\w+\]'),
    (6, 'a fixed buffer', 1, r'let mut \w+ = \[0\w*; [A-Z]\w*\]'),
    (6, 'a list searched by hand', 1, r'while [^{]*\{\s*(?:let [^;]*;\s*)?if [^{]*\{\s*return \w+;'),
    (7, 'a bool written into a call', 1, r'(?m)^\s*(?:true|false),$|[(,] ?(?:true|false)(?=[,)])'),
    (7, 'a number picks a call', 2, r'if \w+ == [1-9]\d* \{\s*(?:let \w+ = |return )[\w.:]+\('),
)
found, everything = set(), []

class Item:
    def __init__(self, **fields):
        self.__dict__.update(fields)

def split(text, sep=','):
    parts, depth, last = [], 0, 0
    for i, c in enumerate(text):
        depth += (c in '([{') - (c in ')]}') + (sep != '×') * ((c == '<') - (c == '>' and text[i - 1] not in '-='))
        if c == sep and depth == 0:
            parts.append(text[last:i].strip())
            last = i + 1
    return [p for p in parts + [text[last:].strip()] if p]

def signature(f):
    text = re.sub(r'^(.*?fn \w+)<.*?>\(', r'\1(', f.head, count=1, flags=re.S)
    text, *clauses = re.split(r'\n\s*(requires|ensures)(?: \w+)? (?=\{)', text)
    text = text[text.index(f.name + '(') + len(f.name):]
    inside = split(text, ')')[0]
    pairs = [(p + ':').split(':', 1) for p in split(inside[1:])]
    f.params = [(re.sub(r'^(&?mut |&)', '', a), t.strip(' :')) for a, t in pairs]
    f.any = '(?:' + '|'.join(re.escape(a) for a, _ in f.params) + ')'
    f.ret = re.sub(r'^\s*\)\s*(->\s*)?', '', text[text.index(inside) + len(inside):]).split('where')[0].strip(' \n;')
    f.clauses = [(k, ' '.join(c.split())[1:-1]) for k, c in zip(clauses[::2], clauses[1::2])]
    f.contract = ' '.join(c for _, c in f.clauses)

def items(path):
    lines = open(path, encoding='utf-8').read().split('\n')
    code = [re.sub(r'//.*', '', x).rstrip() for x in lines]
    for i, m in [(i, START.match(x)) for i, x in enumerate(code) if START.match(x)]:
        f, b, j = Item(kind=m[2], name=m[3], file=path, line=i + 1, crate=path.split('/')[1]), i, i
        while b and re.match(r'\s*(//|#\[)', lines[b - 1]):
            b -= 1
        while j < len(code) - 1 and code[j] != m[1] + '{' and not code[j].endswith(('{}', ';')) and (
                not code[j].endswith('{') or re.match(r'\s*(requires|ensures)', code[j])):
            j += 1
        k = j
        while code[j].endswith('{') and k < len(code) - 1 and code[k] not in (m[1] + '}', m[1] + '};'):
            k += 1
        f.head, f.body, f.at, f.comment = '\n'.join(code[i:j + 1]).rstrip('{ \n'), '\n'.join(code[j + 1:k]), j + 2, ' '.join(lines[b:i])
        text = '' if f.kind in ('fn', 'const') else f.body or f.head.partition('(')[2].rstrip(');')
        f.parts = [re.sub(r'^pub(\(\w+\))? ', '', p) for p in split(text)]
        if f.kind == 'fn':
            signature(f)
        everything.append(f)

def place(point, f, form, text, line=None):
    found.add((point, form, f.file, line or f.line, f.name, ' '.join(text.split())))

def hits(point, form, least, pattern, f):
    ms = list(re.finditer(pattern, f.body))
    if len(ms) >= least:
        at = f.at + f.body.count('\n', 0, ms[0].end() - len(ms[0][0].lstrip()))
        place(point, f, form, f'{len(ms)}: ' + '; '.join(sorted({' '.join(m[0].split()) for m in ms})), at)

def joined(pairs):
    groups = {}
    for f, g in pairs:
        both = groups.get(f, {f}) | groups.get(g, {g})
        groups.update({h: both for h in both})
    return [sorted(s, key=lambda h: (h.file, h.line)) for s in {id(s): s for s in groups.values()}.values()]

def alike(f, g):
    low, high = sorted((len(f.tokens), len(g.tokens)))
    s, bound = SequenceMatcher(None, f.tokens, g.tokens, False), .82 if low > 8 else 1
    return low > 5 and high < 1.5 * low and s.quick_ratio() >= bound and s.ratio() >= bound

def same_fields(f, g):
    a, b = set(f.parts), set(g.parts)
    one_type = len(a ^ b) == 2 and len(a) == len(b) and len({p.split(':')[0] for p in a | b}) == len(a)
    return len(a & b) > 2 or (len(a & b) > 1 and len(a ^ b) < 2) or (a & b and one_type)

for path in sorted(glob.glob('crates/*/src/**/*.rt', recursive=True)):
    items(path)
    for m in re.finditer(r'(?:[\w()]*\s*const \w+: [ui]\w+ = \d+;\s*){4,}', open(path, encoding='utf-8').read()):
        names = re.findall(r'const (\w+)', m[0])
        place(1, next(f for f in everything if (f.file, f.name) == (path, names[0])), 'constants that number kinds', ', '.join(names))
fns = [f for f in everything if f.kind == 'fn']
plain = [f.name for f in everything if f.kind == 'enum' and '(' not in ''.join(f.parts)]
choices = [f for f in fns if re.fullmatch(rf'if {f.any} \{{ [\w:]+(?:\(\w+\))? \}} else \{{ \w+ \}}', f.body.strip())]
told = {f.name for f in fns if NUMBER.match(f.ret) and (CODE.search(f.name + f.comment) or re.search(r'return [1-9]\d*;', f.body))}
for _ in range(4):  # and what only hands such an answer on
    told |= {f.name for f in fns if NUMBER.match(f.ret) for a in told if re.search(r'(?:^|[:.\s])' + a + r'\([^;]*\)\s*$', f.body)
             or re.search(r'(?s)let (\w+) = [\w:.]*\b' + a + r'\(.*\b\1\s*$', f.body)}

[place(4, f, 'if, && or || as a function', f.body) for f in choices]
for f in everything:
    coded = [p for p in f.parts if re.search('(^|: )bool$', p) or (CODE.search(p) and NUMBER.search(p.rstrip(')')))]
    if len(f.parts) > 1 and (coded or (f.kind == 'enum' and len(f.parts) == 2 and '(' in ''.join(f.parts))):
        place(1, f, 'enum as Option or Result' if f.kind == 'enum' else 'flag or number beside values', ', '.join(f.parts))
for f in fns:
    [hits(*form, f) for form in FORMS]
    body = f.body.strip()
    # 1: numbers for refusals and kinds
    if (f.name in told and NUMBER.match(f.ret)) or re.search(r'Result<.*, [ui](\d+|size)>|\(bool, |, bool\)', f.ret):
        place(1, f, 'answers a refusal as a number', f.head.split('\n')[0])
    if re.search(r'(?:where|if|when) \w+ (?:is|are) (?:none|missing)|for a missing', f.comment) and '&' not in f.ret:
        place(1, f, 'a value that stands for none', f.comment)
    got = [m[1] for m in re.finditer(r'let (\w+)[^=;]* = [\w:.]*?(\w+)\b(?=[;(])', f.body) if m[2] in told or CODE.search(m[2])]
    hits(1, 'number of a refusal tested', 1, r'(?:\b|\w+\.)(?:' + '|'.join([r'\w*refus\w*'] + got) + r') [!=]= \d+', f)
    tests = sorted(set(re.findall(r'([\w.]+(?: [/%] \d+)*) == ([1-9]\d*)\b', f.body)))
    for x in (x for x, n in Counter(x for x, _ in tests).items() if n > 1):
        place(1, f, 'number that codes a kind', x + ' == ' + ', '.join(n for y, n in tests if y == x))
    # 3: loops
    for m in re.finditer(r'(?m)^(\s*)(while|loop|for)\b(.*)\{$', f.body):
        step = re.search(r'\w+ \+= |(\w+) = \1 \+ ', f.body[m.end():].split('\n' + m[1] + '}')[0])
        if step or (m[2] == 'for' and '..' in m[3]):
            place(3, f, 'index or count kept by hand', m[2] + m[3] + (step[0] if step else ''), f.at + f.body.count('\n', 0, m.start(2)))
    # 4: conversions, operators, choices and printing
    big = [n for n in re.findall(r'(?<![\w.])\d{3,}\b', f.body) if int(n) & (int(n) - 1) == 0 or int(n) & (int(n) + 1) == 0]
    n = '(?:' + '|'.join(big or ['-']) + ')'
    hits(4, 'words, bytes or signs by arithmetic', 1, rf'-1 - |/ 2 \* 2|[-+*/%<] {n}\b|\b{n} [-+*]|, {n}\)', f)
    if re.fullmatch(rf'(?:\d+ \+ |\w+ \* )?\(?{f.any} as \w+\)?', body):
        place(4, f, 'a cast as a function', body)
    else:
        hits(4, 'a cast', 1, r'[\w.]*[\w)\]] as \w+', f)
    if re.fullmatch(rf'std::\w+::\w+\({f.any}, {f.any}\)|{f.any} [-+*/^&|%] (?:{f.any}|\d+)', body):
        place(4, f, 'an operator as a function', body)
    hits(4, 'if, && or || by a call', 1, r'\b(?:' + '|'.join([g.name for g in choices] or ['-']) + r')\(', f)
    if any('Write' in t for _, t in f.params) and re.search(r'\b(?:write|print)(?:_\w+\(|!)', f.body):
        place(4, f, 'printing by hand', f.head.split('\n')[0])
    # 6 and 7: a slice with its length beside it, a flag that picks
    for a, t in f.params:
        for b in (b for b, u in f.params if '[' in t and NUMBER.match(u) and '&[' not in f.ret):
            if re.search(rf'(?:take|drop) (?:\(\w+ {b}\)|{b}) {a}\.|length {a}\.\w+ ≡ {b}\b|{b} \(length {a}\.', f.contract):
                place(6, f, 'a slice and its length', f'({a}: {t}, {b})')
        if t == 'bool' and re.search(rf'\bif !?{a}\b|[(, ]{a}[,)]', f.body):
            place(7, f, 'a bool picks', a)
        if t in plain and f'match {a} {{' in f.body:
            place(7, f, 'a plain enum picks', f'match {a}: {t}')
    # 2: the body with names, numbers and direction words made the same
    f.tokens, raw = [], [t for t in re.findall(r'\w+|[^\w\s)]', re.sub(r' as \w+|\b\w+::', '', f.body))] + ['']
    for t, u in ((t, u) for t, u in zip(raw, raw[1:]) if t != '('):
        way = re.sub('(?i)forward|back', 'D', t)
        f.tokens.append('N' if t[0].isdigit() else way if u == '(' or t in KEYWORDS or way != t or not t[0].isalpha() else 'v')
for form, kind, test in (('functions alike', 'fn', alike), ('types with the same fields', 'struct', same_fields)):
    for group in joined([(f, g) for f, g in combinations([f for f in everything if f.kind == kind], 2) if test(f, g)]):
        place(2, group[0], form, ', '.join(f'{h.crate}::{h.name}:{h.line}' for h in group))

# 5: parameters that travel together, and what stands in many contracts
for crate in sorted({f.crate for f in fns}):
    mine, sets, facts, shown = [f for f in fns if f.crate == crate], {}, defaultdict(list), []
    for f in mine:
        sets[f], terms = frozenset(a + ': ' + re.sub('&(mut )?', '', t) if t else a for a, t in f.params), set()
        for kind, c in ((kind, re.sub(r'\.(old|now|new)\b', '', c)) for kind, c in f.clauses):
            terms |= {re.sub(r'^\((.*)\)$', r'\1', t) for t in split(c, '×') if kind == 'requires'}
            terms |= set(re.findall(r'(?=\(([a-z]\w*(?: (?:[\w.]+|\([^()]*\))){2,})\))', c))
        for t in terms:
            facts[t].append(f)
    groups = {s: [h for h in mine if s <= sets[h]] for s in {sets[f] & sets[g] for f, g in combinations(mine, 2)} if len(s) > 2}
    for s, fs in sorted(groups.items(), key=lambda x: (-len(x[0]) * len(x[1]), sorted(x[0]))):
        near = [gs for o, gs in shown if (s <= o or o <= s) and len(set(fs) & set(gs)) >= .6 * min(len(fs), len(gs))]
        if len(fs) > 2 and not near:
            shown.append((s, fs))
            place(5, fs[0], 'parameters together', f'{len(fs)} functions: ({", ".join(sorted(s))}) in ' + ', '.join(h.name for h in fs))
    for t, fs in ((t, fs) for t, fs in facts.items() if len(fs) > 2):
        place(5, fs[0], 'stands in many contracts', f'{len(fs)} functions: {t} in ' + ', '.join(h.name for h in fs))

for point, form, file, line, name, text in sorted(found):
    print(f'{point} {file}:{line} {name}  {form}: {text}')
for point in range(1, 8):
    forms = Counter(x[1] for x in found if x[0] == point)
    print(f'{chr(10) * (point == 1)}point {point}: {sum(forms.values())} (' + ', '.join(f'{k} {n}' for k, n in sorted(forms.items())) + ')')

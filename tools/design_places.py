#!/usr/bin/env python3
"""Counts, in crates/*/src, the places of docs/DESIGN-PASS.md, point by point: design_places.py [--list] [POINT ..]"""
import collections
import glob
import re
import sys

LIST = '--list' in sys.argv
WANTED = [a for a in sys.argv[1:] if a.isdigit()]


def code(path):
    text = open(path, encoding='utf-8').read()
    return re.sub(r'(?m)//.*$', '', text)


FILES = {p: code(p) for p in sorted(glob.glob('crates/*/src/*.rt'))}


def line_of(text, at):
    return text.count('\n', 0, at) + 1


def block(text, at):
    """The text from the first brace at or after `at` to the one that closes it."""
    start = text.index('{', at)
    deep = 0
    for i in range(start, len(text)):
        if text[i] == '{':
            deep += 1
        elif text[i] == '}':
            deep -= 1
            if deep == 0:
                return text[start + 1:i]
    return text[start + 1:]


def items(word):
    """(file, line, name, body) of each struct or enum."""
    for path, text in FILES.items():
        for m in re.finditer(r'(?m)^\s*(?:pub(?:\(crate\))? )?%s (\w+)[^;{(]*\{' % word, text):
            yield path, line_of(text, m.start(1)), m.group(1), block(text, m.start())


def variants(body):
    parts, deep, cut = [], 0, ''
    for ch in body:
        if ch in '({<':
            deep += 1
        elif ch in ')}>':
            deep -= 1
        if ch == ',' and deep == 0:
            parts.append(cut.strip())
            cut = ''
        else:
            cut += ch
    parts.append(cut.strip())
    return [re.sub(r'#\[[^\]]*\]\s*', '', p).strip() for p in parts if p.strip()]


CLAUSE = re.compile(r'^\s*(requires|ensures|ghost)\b')


def functions():
    """(file, line, name, parameters, clauses, body) of each function; clauses and body start on lines of their own (rt fmt)."""
    for path, text in FILES.items():
        lines = text.split('\n')
        i = 0
        while i < len(lines):
            m = re.match(r'^(\s*)(?:#\[.*\]\s*)?(?:pub(?:\(crate\))? )?(?:extern "C" )?fn (\w+)', lines[i])
            if not m:
                i += 1
                continue
            pad, name, first = m.group(1), m.group(2), i
            head = lines[i]
            while not (lines[i].rstrip().endswith('{') or lines[i].strip() == '{'):
                if lines[i].rstrip().endswith(';'):
                    break
                i += 1
            opening = i
            while i < len(lines) and lines[i] != pad + '}':
                i += 1
            head = '\n'.join(lines[first:opening + 1])
            clauses = [re.sub(r'\s+', ' ', l.strip()) for l in lines[first:opening + 1] if CLAUSE.match(l)]
            params = re.search(r'\((.*?)\)(?:\s*->|\s*\n|\s*\{|\s*$)', re.sub(r'\s+', ' ', head) + '\n')
            yield path, first + 1, name, params.group(1) if params else '', clauses, '\n'.join(lines[opening + 1:i])
            i += 1


FUNCTIONS = list(functions())
NOTHING = re.compile(r'^(Nothing|None|Malformed|Short|Bad|No|Empty|Done|Taken|Failed|Unknown|End|Full|Absent)$')


def point1():
    for path, line, name, body in items('enum'):
        v = variants(body)
        plain = [x for x in v if re.fullmatch(r'\w+', x)]
        carrying = [x for x in v if x not in plain]
        if len(v) == 2 and len(plain) == 1 and NOTHING.match(plain[0]):
            yield 'an enum of the shape of Option', path, line, name
        elif len(v) == 2 and len(carrying) == 2 and any(re.match(r'(Malformed|Bad|Err|Refused)', x) for x in v):
            yield 'an enum of the shape of Result', path, line, name
        elif len(v) == 2 and not carrying and 'Done' in v:
            yield 'an enum of the shape of Result', path, line, name
        elif len(v) > 2 and any(re.fullmatch(r'Nothing|None|Taken|Done|Failed', x) for x in v):
            yield 'an enum with a variant for none, done or failed', path, line, name
    for path, line, name, body in items('struct'):
        for f in re.findall(r'\b(ok|any|low|high|fits): bool', body):
            yield 'a flag with a value beside it', path, line, name + '.' + f
        for f in re.findall(r'\b(number): usize', body):
            yield 'a number for a refusal', path, line, name + '.' + f
    for path, text in FILES.items():
        for m in re.finditer(r'(?m)^(?:pub )?const (\w+): (?:usize|u8) = \d+;', text):
            if re.search(r'(ROW|LEN|LENGTH|DEPTH|MAX|HEIGHT|SHORT|STRING|LONG|COLUMN|STEP|LEVEL|STATE|EDITION|PATH_MAX|ROOM|KEPT|MOST|FEW|LONGEST|FRESH|UNTOUCHED|LEVELS|RECORDS)', m.group(1)):
                if m.group(1) not in ('LONG_KEY', 'LONG_VALUE', 'NO_ROOM', 'LONG_MESSAGE'):
                    continue
            yield 'a number for a kind, a status or a refusal', path, line_of(text, m.start()), m.group(1)
    for path, line, name, params, clauses, body in FUNCTIONS:
        if re.search(r'\bkind: usize|\boperation: usize|\bnumber: usize|\bop: usize', params):
            yield 'a parameter that is a number for a kind, a call or a refusal', path, line, name


def shape(body):
    words = {}

    def turn(m):
        w = m.group(0)
        if re.match(r'\d', w):
            return '0'
        if w in KEYWORDS:
            return w
        return words.setdefault(w, 'v%d' % len(words))
    return re.sub(r'\s+', ' ', re.sub(r'b?"[^"]*"|\w+', turn, body)).strip()


KEYWORDS = set('if else match return let mut while loop for in break continue fn as self Self true false u8 u32 u64 usize len'.split())


def point2():
    groups = collections.defaultdict(list)
    for path, line, name, params, clauses, body in FUNCTIONS:
        if len(re.sub(r'\s', '', body)) >= 12:
            groups[shape(params + ' | ' + body)].append((path, line, name))
    for s, places in groups.items():
        if len(places) > 1:
            for path, line, name in places:
                yield 'functions of one text but for names, types and constants (%d groups)', path, line, name
    groups = collections.defaultdict(list)
    for word in ('struct', 'enum'):
        for path, line, name, body in items(word):
            groups[word + shape(body)].append((path, line, name))
    for s, places in groups.items():
        if len(places) > 1 and s.count(',') > 0:
            for path, line, name in places:
                yield 'types of one text but for names', path, line, name


def point3():
    for path, text in FILES.items():
        for m in re.finditer(r'(?m)^\s*while\b([^\n]*)', text):
            body = block(text, m.end() - 1)
            counted = re.search(r'\b(\w+) (\+|-)= 1;|\b(\w+) = \w+ (\+|-) 1;', body)
            what = 'a while that counts by one' if counted else 'another while'
            yield what, path, line_of(text, m.start(1)), m.group(1).strip()
        for m in re.finditer(r'(?m)^\s*loop \{', text):
            yield 'a loop', path, line_of(text, m.end()), 'loop'


def point4():
    for path, line, name, params, clauses, body in FUNCTIONS:
        b = re.sub(r'\s+', ' ', body).strip()
        if re.fullmatch(r'match [\w.()&, ]+ \{( [\w:|(), _\'\.]+ => (true|false),?)+ \}', b):
            yield 'a match on variants that says true or false', path, line, name
        if re.fullmatch(r'if .* \{ return true; \} false|if .* \{ true \} else \{ false \}|if let .* \{ return true; \} false', b):
            yield 'an if that says true or false', path, line, name
        if re.fullmatch(r'(\w+ as (usize|u64|u32))', b):
            yield 'a conversion in a function of its own', path, line, name
        if name in ('copy', 'copy32', 'put', 'put_label', 'copy_within', 'put_bytes', 'fill', 'exchange') and 'while' in body:
            yield 'a copy by hand', path, line, name
        if re.fullmatch(r'match \w+ \{( (\w+(::\w+)?|_) => \d+,)+ \}', b):
            yield 'a conversion of an enum to a number', path, line, name
        if re.match(r'(shorter|lesser|same|below)$', name):
            yield 'a comparison in a function of its own', path, line, name
    for path, line, name, body in items('enum'):
        if variants(body) == ['Less', 'Equal', 'Greater']:
            yield 'an order of its own', path, line, name


def point5():
    facts = collections.defaultdict(list)
    for path, line, name, params, clauses, body in FUNCTIONS:
        crate = path.split('/')[1]
        for c in clauses:
            m = re.match(r'requires (?:\w+ )?\{ (.*) \}$', c)
            if m:
                for part in m.group(1).split(' × '):
                    facts[(crate, re.sub(r'\.(old|now)\b', '', part.strip('() ')))].append((path, line, name))
    for (crate, fact), places in facts.items():
        if len(places) >= 3:
            yield 'a fact in the requires of three functions or more of a crate', places[0][0], places[0][1], '%s (%d functions)' % (fact, len(places))
    pairs = collections.defaultdict(list)
    alone = collections.Counter()
    for path, line, name, params, clauses, body in FUNCTIONS:
        crate = path.split('/')[1]
        ps = sorted(set(re.sub(r"&'?\w* ?mut |&'\w+ |&", '', p.strip()) for p in params.split(',') if ':' in p))
        for p in ps:
            alone[crate, p] += 1
        for i, p in enumerate(ps):
            for q in ps[i + 1:]:
                pairs[crate, p, q].append((path, line, name))
    for (crate, p, q), places in pairs.items():
        if len(places) >= 4 and len(places) >= 0.8 * max(alone[crate, p], alone[crate, q]):
            yield 'parameters that travel together in four functions or more of a crate', places[0][0], places[0][1], '%s, %s (%d functions)' % (p, q, len(places))


def point6():
    for path, line, name, body in items('struct'):
        if re.search(r'\blen: usize', body) and re.search(r': \[\w+; ', body):
            yield 'a buffer with its length beside it', path, line, name
    for path, text in FILES.items():
        for m in re.finditer(r'(?m)^(?:pub )?const (\w+): \[u8; \d+\] =\s*\*b"', text):
            yield 'a text in an array whose length is counted', path, line_of(text, m.start()), m.group(1)
        for m in re.finditer(r'let mut (\w+) = (?:\[0u8; [\w_]+\]|zeros::<[\w:{}_ +]+>\(\));', text):
            yield 'a buffer of fixed length on the stack', path, line_of(text, m.start()), m.group(1)


def point7():
    for path, line, name, params, clauses, body in FUNCTIONS:
        for p in re.findall(r'\b(which|way|op|kind|walk|what|part|middle|shape|change): (\w+)', params):
            if re.search(r'match %s\b|if %s ==|if %s <' % (p[0], p[0], p[0]), body):
                yield 'a function that chooses by a parameter', path, line, '%s(%s: %s)' % (name, p[0], p[1])


def point8():
    for p in sorted(glob.glob('crates/*/proofs/*/Answers.antt') + glob.glob('crates/*/proofs/*/*/Answers.antt')):
        n = len(re.findall(r'(?m)^pub [\w-]+ : goal', open(p, encoding='utf-8').read()))
        for i in range(n):
            yield 'answers in proofs/F/Answers.antt', p, 0, ''
    for p in sorted(glob.glob('crates/*/proofs/*/Invariants.antt') + glob.glob('crates/*/proofs/*/*/Invariants.antt')):
        n = len(re.findall(r'(?m)^abbrev pub [\w-]+ : goal', open(p, encoding='utf-8').read()))
        for i in range(n):
            yield 'invariants and measures in proofs/F/Invariants.antt', p, 0, ''


for n, f in enumerate((point1, point2, point3, point4, point5, point6, point7, point8), 1):
    if WANTED and str(n) not in WANTED:
        continue
    found = list(f())
    print('point %d: %d places' % (n, len(found)))
    for what, places in collections.Counter(w for w, *_ in found).items():
        print('  %4d  %s' % (places, what.replace(' (%d groups)', '')))
    if LIST and n != 8:
        for what, path, line, name in found:
            print('        %s:%d  %s  [%s]' % (path[7:], line, name, what.replace(' (%d groups)', '')))

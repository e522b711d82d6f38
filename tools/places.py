#!/usr/bin/env python3
"""Finds, in crates/*/src, places where a plainer form may fit.

    tools/places.py twins       functions whose bodies are the same but for names, numbers and types
    tools/places.py facts       facts that stand in the clauses of three or more functions of a crate
    tools/places.py together    parameters (name and type) that stand together in three or more functions of a crate
    tools/places.py loops       loops that count by hand: an index, a counter, an accumulator
    tools/places.py matches     matches on an Option or a Result whose arms only hand on
"""
import glob, re, sys
from collections import defaultdict
from itertools import combinations

def sources():
    for path in sorted(glob.glob('crates/*/src/**/*.rt', recursive=True)):
        yield path, open(path).read()

SIG = re.compile(r'^( *)(?:pub(?:\([a-z]+\))? )?(?:unsafe )?(?:extern "C" )?fn ([a-z_0-9]+)(.*?)^\1\{(.*?)^\1\}|^( *)(?:pub(?:\([a-z]+\))? )?(?:extern "C" )?fn ([a-z_0-9]+)([^\n]*)\{\}', re.S | re.M)

def functions():
    for path, text in sources():
        text = re.sub(r'//[^\n]*', '', text)
        for m in re.finditer(r'^( *)(?:pub(?:\([a-z]+\))? )?(?:extern "C" )?fn ([a-z_0-9]+)(.*?)(?:\n\1\{\n(.*?)\n\1\}|\{\n(.*?)\n\1\}|\{\})', text, re.S | re.M):
            yield path, m.group(2), m.group(3), m.group(4) or m.group(5) or ''

KEEP = set('if else match let mut for in while loop return fn as true false Some None Ok Err self'.split())

def shape(body):
    out, names = [], {}
    for t in re.findall(r"[A-Za-z_][A-Za-z_0-9]*|0x[0-9A-Fa-f_]+|[0-9][0-9_a-z]*|b?'[^']*'|b?\"[^\"]*\"|[^\s]", body):
        if t in KEEP or not re.match(r"[A-Za-z_0-9b'\"]", t):
            out.append(t)
        else:
            out.append('$%d' % names.setdefault(t, len(names)))
    return ' '.join(out)

def twins():
    seen = defaultdict(list)
    for path, name, sig, body in functions():
        s = shape(body)
        if len(s.split()) >= 12:
            seen[s].append((path, name))
    groups = [g for g in seen.values() if len(g) > 1]
    for g in groups:
        print('; '.join('%s %s' % x for x in g))
    print(len(groups), 'groups of', sum(map(len, groups)), 'functions')

def facts():
    seen = defaultdict(set)
    for path, name, sig, body in functions():
        crate = path.split('/')[1]
        for clause in re.findall(r'(?:requires|ensures)[^{]*\{(.*?)\}\s*(?=requires|ensures|$)', sig, re.S):
            for fact in re.split(r'×|→', clause):
                f = fact.replace('(', ' ').replace(')', ' ').strip()
                if re.search(r'[<≤≡]', f) and not re.search(r'result ≡', f):
                    f = re.sub(r'\b(?!length\b|size\b|bias\b|span\b|unsigned\b|unsigned_abs\b|value\b|units\b|fused\b|is_ok\b)[a-z_][a-z_0-9.]*\b', '_', f)
                    seen[crate, ' '.join(f.split())].add(path.split('/', 3)[3] + ' ' + name)
    n = 0
    for (crate, f), where in sorted(seen.items()):
        if len(where) >= 3:
            n += 1
            print('%s: %s   (%d: %s)' % (crate, f, len(where), ', '.join(sorted(where))))
    print(n, 'facts')

def together():
    seen = defaultdict(set)
    for path, name, sig, body in functions():
        crate = path.split('/')[1]
        m = re.match(r'(?:<[^(]*>)?\((.*?)\)\s*(?:->|where|requires|ensures|$|\n)', sig, re.S)
        if not m:
            continue
        ps = sorted(set(re.findall(r"([a-z_0-9]+): (&?(?:'a )?(?:mut )?\[?[A-Za-z0-9_<>]+\]?)", m.group(1))))
        for k in range(2, min(len(ps), 5) + 1):
            for c in combinations(ps, k):
                seen[crate, c].add(path.split('/', 3)[3] + ' ' + name)
    groups = {k: v for k, v in seen.items() if len(v) >= 3}
    n = 0
    for (crate, c), where in sorted(groups.items()):
        if any(cr == crate and set(c) < set(d) and where <= w for (cr, d), w in groups.items()):
            continue
        n += 1
        print('%s: %s   (%d: %s)' % (crate, ', '.join('%s: %s' % p for p in c), len(where), ', '.join(sorted(where))))
    print(n, 'groups')

def loops():
    n = 0
    for path, name, sig, body in functions():
        if re.search(r'^\s*(while|loop)\b', body, re.M) or re.search(r'^\s*for \(?[a-z_, ]+\)? in [^{]*(\.\.|enumerate)', body, re.M) \
           or (re.search(r'^\s*for\b', body, re.M) and re.search(r'let mut [a-z]+(: [a-z0-9]+)? = (0|String::new|Vec::new)', body)):
            n += 1
            print(path, name)
    print(n, 'loops')

def matches():
    n = 0
    for path, name, sig, body in functions():
        hand = re.findall(r'^\s*(None => (?:None|return None|unreachable\(\)|Err\([^)]*\)|[a-z:A-Z]*|0),|Some\(\w+\) => (?:Err|Ok|Some)\([^,]*\),|Ok\((\w+)\) => Ok\([^,]*\),|Err\(_?\w*\) => (?:Err\(.*\)|unreachable\(\)|.*),|Ok\(\w+\) => \w+,|None => None,)', body, re.M)
        hand += re.findall(r'let Some\([^)]*\) = [^;]* else \{\s*return None;', body)
        if hand:
            n += 1
            print(path, name)
    print(n, 'functions')

{'twins': twins, 'facts': facts, 'together': together, 'loops': loops, 'matches': matches}[sys.argv[1]]()

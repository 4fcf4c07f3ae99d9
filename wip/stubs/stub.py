#!/usr/bin/env python3
"""stub.py FROM TO CRATE..: scratch copies of crates whose functions have no body of their own, to try proofs above them."""
import os, re, shutil, sys

SRC, DST = sys.argv[1], sys.argv[2]
CRATES = sys.argv[3:]

def skip_string(t, i):
    i += 1
    while t[i] != '"':
        i += 2 if t[i] == '\\' else 1
    return i + 1

def match_code(t, i):
    """t[i] == '{' of Rust code: the place behind its '}'"""
    depth = 0
    while True:
        c = t[i]
        if t.startswith('//', i):
            i = t.index('\n', i)
            continue
        if c == '"':
            i = skip_string(t, i)
            continue
        if c == "'":
            m = re.match(r"'(\\.[^']*|[^'\\])'", t[i:i+12])
            if m:
                i += m.end()
                continue
        if c == '{':
            depth += 1
        if c == '}':
            depth -= 1
            if depth == 0:
                return i + 1
        i += 1

def match_clause(t, i):
    depth = 0
    while True:
        c = t[i]
        if c == '"':
            i = skip_string(t, i)
            continue
        if c == '{':
            depth += 1
        if c == '}':
            depth -= 1
            if depth == 0:
                return i + 1
        i += 1

def body_of(t, i):
    """from 'fn' at i: start and end of the body, or None for a declaration without one"""
    start = i
    last = i
    paren = 0
    while True:
        c = t[i]
        if t.startswith('//', i):
            i = t.index('\n', i)
            continue
        if c in '([':
            paren += 1
        if c in ')]':
            paren -= 1
        if c == ';' and paren == 0:
            return None, i + 1
        if c == '{':
            before = t[last:i]
            if paren or re.search(r'((requires|ensures)\*?(\s+\w+)?|ghost\s+\w+\s*:)\s*$', before):
                i = match_clause(t, i)
                last = i
                continue
            return i, match_code(t, i)
        i += 1

FN = re.compile(r'^([ \t]*)((?:pub(?:\([a-z]+\))? )?)((?:const )?)fn (\w+)', re.M)
IMPL = re.compile(r'^(impl|trait|pub trait|unsafe extern)\b[^{]*\{', re.M)

def stub_file(t, kept_impls):
    # spans of trait impls and traits: left as they are
    spans = []
    for m in IMPL.finditer(t):
        end = match_clause_or_code(t, m.end() - 1)
        head = m.group(0)
        trait = re.match(r'impl(?:<[^{]*?>)? +([\w:]+(?:<[^{]*>)?) for +(&?[\w:]+)', head)
        if head.startswith('impl') and not trait:
            continue
        spans.append((m.start(), end))
        if trait:
            kept_impls.append((trait.group(1), trait.group(2)))
    tests = [(m.start(), len(t)) for m in re.finditer(r'^#\[cfg\(test\)\]', t, re.M)]
    out, at = [], 0
    for m in FN.finditer(t):
        if m.start() < at:
            continue
        if any(a <= m.start() < b for a, b in spans + tests):
            continue
        if m.group(3):
            continue
        start, end = body_of(t, m.end())
        if start is None:
            continue
        out.append(t[at:start])
        out.append('{\n%s    stub::never()\n%s}' % (m.group(1), m.group(1)))
        at = end
    out.append(t[at:])
    return ''.join(out)

def match_clause_or_code(t, i):
    return match_code(t, i)

def drop_attributes(t):
    lines = t.split('\n')
    out = []
    for k, line in enumerate(lines):
        if re.match(r'\s*#\[(cycle|tactic)\(.*\)\]$', line):
            j = k + 1
            while re.match(r'\s*(#\[|//)', lines[j]):
                j += 1
            if re.match(r'\s*(pub(\([a-z]+\))? )?(const )?fn ', lines[j]):
                continue
        out.append(line)
    return '\n'.join(out)

def remove_unused(files):
    """private functions that nothing names"""
    while True:
        text = '\n'.join(files.values())
        again = False
        for name, t in files.items():
            for m in FN.finditer(t):
                if m.group(3) or (m.group(2) == 'pub ' and re.search(r'\b%s\b' % m.group(4), USERS)):
                    continue
                # not within a trait impl
                inside = False
                for i in IMPL.finditer(t):
                    if i.start() <= m.start() < match_code(t, i.end() - 1) and (' for ' in i.group(0) or 'trait' in i.group(0)):
                        inside = True
                if inside:
                    continue
                start, end = body_of(t, m.end())
                if start is None or 'stub::never()' not in t[start:end]:
                    continue
                if len(re.findall(r'\b%s\b(?=\s*(?:\(|::<|[,)]|$))' % m.group(4), re.sub(r'(?m)^\s*(//|ghost use|use ).*$', '', text))) > 1:
                    continue
                # with its comments and attributes
                head = m.start()
                while True:
                    prev = t.rfind('\n', 0, head - 1)
                    line = t[prev + 1:head - 1]
                    if head > 0 and re.match(r'\s*(//|#\[)', line) and not re.match(r'\s*//!', line):
                        head = prev + 1
                    else:
                        break
                t = t[:head] + t[end:].lstrip('\n')
                files[name] = t
                again = True
                gone = m.group(4)
                for other in files:
                    files[other] = drop_use(files[other], gone)
                break
            if again:
                break
        if not again:
            return

def drop_use(t, name):
    def one(m):
        line = m.group(0)
        if re.search(r'::%s;$' % name, line):
            return ''
        inner = re.search(r'\{(.*)\}', line)
        if inner:
            items = [x.strip() for x in inner.group(1).split(',')]
            if name in items:
                items.remove(name)
                if len(items) == 1:
                    return re.sub(r'\{.*\}', items[0], line)
                return re.sub(r'\{.*\}', '{' + ', '.join(items) + '}', line)
        return line
    return re.sub(r'(?m)^use crate::.*;$', one, t)

USERS = ''
for _c in ('file_effects', 'write_rules', 'block_grants', 'node_commands', 'namesystem', 'name_core', 'fs_operations'):
    for _root, _, _names in os.walk(f'{SRC}/crates/{_c}/src'):
        for _n in _names:
            USERS += re.sub(r'(?m)^\s*//.*$', '', open(f'{_root}/{_n}', encoding='utf-8').read())

def proof_refs(crate):
    """modules of the crate's proofs that other crates name"""
    found = set()
    users = ('file_effects', 'write_rules', 'block_grants', 'node_commands', 'namesystem', 'name_core', 'fs_operations')
    for base, other in [(SRC, u) for u in users] + [(DST, c) for c in DONE]:
        for root, _, names in os.walk(f'{base}/crates/{other}'):
            if '/out' in root:
                continue
            for n in names:
                if n.endswith(('.antt', '.rt')):
                    s = open(f'{root}/{n}', encoding='utf-8').read()
                    found |= set(re.findall(r'Rattle\.%s\.proofs\.([\w.]+?)(?=\.?\{|\s|$)' % crate, s))
                    found |= set(x.replace('::', '.') for x in re.findall(r'\b%s::proofs::([\w:]+)' % crate, s))
    return found

def do(crate):
    a, b = f'{SRC}/crates/{crate}', f'{DST}/crates/{crate}'
    out = f'{b}/out'
    for part in ('src', 'specs', 'proofs'):
        shutil.rmtree(f'{b}/{part}', ignore_errors=True)
        if os.path.isdir(f'{a}/{part}'):
            shutil.copytree(f'{a}/{part}', f'{b}/{part}')
    os.makedirs(f'{b}/proofs', exist_ok=True)
    impls = []
    files = {}
    for root, _, names in os.walk(f'{b}/src'):
        for n in names:
            if n.endswith('.rt'):
                p = f'{root}/{n}'
                t = open(p, encoding='utf-8').read()
                t = stub_file(t, impls)
                t = drop_attributes(t)
                files[p] = t
    remove_unused(files)
    for p, t in files.items():
        if p.endswith('lib.rt') and p.count('/') == f'{b}/src/lib.rt'.count('/'):
            t = re.sub(r'#!\[tactic\(.*\)\]', '#![tactic(auto)]', t)
        else:
            t = re.sub(r'#!\[tactic\(.*\)\]\n', '', t)
        open(p, 'w', encoding='utf-8').write(t)
    keep = set()
    for trait, ty in impls:
        trait = re.sub(r'<.*', '', trait).split('::')[-1]
        ty = re.sub(r'<.*', '', ty).split('::')[-1].lstrip('&')
        keep.add(ty + trait)
    # folders of functions
    for root, dirs, names in os.walk(f'{b}/proofs', topdown=False):
        rel = os.path.relpath(root, f'{b}/proofs')
        parts = [] if rel == '.' else rel.split('/')
        if any(any(p.startswith(k) for k in keep) for p in parts):
            continue
        for n in names:
            if n in ('Answers.antt', 'Invariants.antt', 'Proof.antt'):
                os.remove(f'{root}/{n}')
        if not os.listdir(root) and rel != '.':
            os.rmdir(root)
    # lemma files
    needed = {x.split('.')[0] for x in proof_refs(crate)}
    own = {n[:-5] for n in os.listdir(f'{b}/proofs') if n.endswith('.antt') and n != 'Lib.antt'}
    for root, _, names in os.walk(f'{b}'):
        if '/out' in root:
            continue
        for n in names:
            p = f'{root}/{n}'
            if (n in ('Answers.antt', 'Invariants.antt', 'Proof.antt') and '/proofs/' in p):
                s = open(p, encoding='utf-8').read()
                needed |= {x.split('.')[0] for x in re.findall(r'Rattle\.%s\.proofs\.([\w.]+)' % crate, s)}
            if n.endswith('.rt'):
                s = open(p, encoding='utf-8').read()
                needed |= {x.split('::')[0] for x in re.findall(r'crate::proofs::([\w:]+)', s)}
    needed &= own
    todo = list(needed)
    while todo:
        n = todo.pop()
        s = open(f'{b}/proofs/{n}.antt', encoding='utf-8').read()
        for x in re.findall(r'Rattle\.%s\.proofs\.([\w.]+)' % crate, s):
            x = x.split('.')[0]
            if x in own and x not in needed:
                needed.add(x)
                todo.append(x)
    for n in own - needed:
        os.remove(f'{b}/proofs/{n}.antt')
    lib = f'{b}/proofs/Lib.antt'
    if os.path.exists(lib):
        s = open(lib, encoding='utf-8').read()
        s = ''.join(l for l in s.splitlines(True) if not (m := re.match(r'(?:pub )?mod (\w+)', l)) or m.group(1) not in own or m.group(1) in needed)
        open(lib, 'w', encoding='utf-8').write(s)
    print(crate, 'lemma files', sorted(needed))

DONE = []
for crate in reversed(CRATES):
    do(crate)
    DONE.append(crate)

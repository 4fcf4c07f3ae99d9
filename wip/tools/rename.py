#!/usr/bin/env python3
"""rename.py ROOT TABLE [--dry] [--quiet]: renames definitions of specs/, with each use of them and of nothing else

TABLE has lines `CRATE FILE OLD NEW`, where FILE is the module below specs/ without `.antt`; `#` starts a comment. All lines are applied at
once. A line `docs FILE OLD NEW` is for words in backticks of docs/FILE with no module's file beside them. A use is the definition's name where a file imports it from that module (`use Rattle.CRATE.specs.FILE.{OLD}`), or `x.OLD` where it
imports the module as `x`, or the name in the module itself, and where no binder, argument, `let`, pattern, local definition or parameter
of the Rust function hides it. Names of fields, labels of clauses and constructors stay. Changed are specs/, proofs/, the clauses and
attributes of src/, must-fail and wrong_bodies (by what the edit says of the file that it changes), wrong_rules, and backticks in comments
and documents, there where the line names the module's file.

Told on standard error: definitions that aren't there, new names that are taken, uses of a new name that stand in a file already, backticked
words that may mean a definition and were left, and edits that didn't fit. With --dry nothing is written. Status 1 where a new name is taken
or hidden."""
import glob, os, re, sys
sys.path.insert(0, os.path.dirname(os.path.abspath(__file__)))
from same_words import definitions

TOKEN = re.compile(r'--[^\n]*|"(?:\\.|[^"\\])*"|[()\[\]{},;]|\.(?=[\s)])|[^\s()\[\]{},;"]+')
OPEN, CLOSE = {'(': ')', '[': ']', '{': '}'}, {')', ']', '}'}
NOT_NAMES = {'=', ':', '→', '×', '↦', '|', 'λ', '.', '←', 'in', 'let', 'as', 'elim', 'record', 'where', 'do', 'unfolding', '_', '⊎', ','}


class Token:
    __slots__ = ('text', 'at', 'end', 'line', 'col', 'match')
    def __init__(self, text, at, line, col): self.text, self.at, self.end, self.line, self.col, self.match = text, at, at + len(text), line, col, None


def tokens_of(text, base=0, end=None):
    out, stack, starts = [], [], []
    end = len(text) if end is None else end
    line, line_start = text.count('\n', 0, base), text.rfind('\n', 0, base) + 1
    last = base
    for m in TOKEN.finditer(text, base, end):
        word, at = m.group(), m.start()
        fresh = text.count('\n', last, at)
        if fresh: line += fresh; line_start = text.rfind('\n', 0, at) + 1
        last = at
        if word.startswith('--') and (at == 0 or text[at - 1].isspace()): continue
        # a dot that ends the names behind a λ
        pieces = [word]
        if len(word) > 1 and word.endswith('.') : pieces = [word[:-1], '.']
        for piece in pieces:
            t = Token(piece, at, line, at - line_start); out.append(t); at += len(piece)
            if piece in OPEN: stack.append(len(out) - 1)
            elif piece in CLOSE and stack:
                k = stack.pop(); out[k].match = len(out) - 1; t.match = k
    return out


class Walk:
    """The uses of names in a text, as (start, end, new)."""
    def __init__(self, text, plain, aliases):
        self.text, self.plain, self.aliases, self.changes, self.new_names, self.clashes = text, plain, aliases, [], set(plain.values()), []

    # ---- a term

    def ident(self, t, bound):
        word = t.text
        if word.startswith('.'): return
        parts = word.split('.')
        head = parts[0]
        if head in bound: return
        if len(parts) > 1 and head in self.aliases:
            if parts[1] in self.aliases[head]:
                at = t.at + len(head) + 1
                self.changes.append((at, at + len(parts[1]), self.aliases[head][parts[1]]))
            return
        if head in self.plain:
            if self.plain[head] in bound: self.clashes.append((t.line + 1, self.plain[head], 'HIDDEN: a binder has the new name'))
            self.changes.append((t.at, t.at + len(head), self.plain[head]))

    def names_in(self, i, j):
        return {self.toks[k].text for k in range(i, j) if re.match(r"^[^\W\d][\w'-]*$", self.toks[k].text) and self.toks[k].text not in NOT_NAMES}

    def find(self, i, j, words):
        k = i
        while k < j:
            t = self.toks[k]
            if t.text in words: return k
            k = t.match + 1 if t.text in OPEN and t.match is not None and t.match < j else k + 1
        return j

    def split(self, i, j, words):
        start = i
        while True:
            k = self.find(start, j, words)
            yield start, k
            if k >= j: return
            start = k + 1

    def let_end(self, i, j):
        """the `in` of the `let` whose value begins at i"""
        depth, k = 0, i
        while k < j:
            t = self.toks[k].text
            if t == 'let': depth += 1
            elif t == 'in':
                if depth == 0: return k
                depth -= 1
            k = self.toks[k].match + 1 if t in OPEN and self.toks[k].match is not None else k + 1
        return j

    def telescope(self, i):
        """the names of a bracket `(x y : A)`, and where its type begins"""
        end = self.toks[i].match
        k = i + 1
        while k < end and re.match(r"^[^\W\d][\w'-]*$|^_$", self.toks[k].text): k += 1
        if k > i + 1 and k < end and self.toks[k].text == ':': return self.names_in(i + 1, k), k + 1
        return None

    def term(self, i, j, bound):
        bound = set(bound)
        k = i
        toks = self.toks
        while k < j:
            t = toks[k]
            if t.text in ('(', '{') and t.match is not None and t.match < j:
                tele = self.telescope(k)
                if tele:
                    names, at = tele
                    self.term(at, t.match, bound)
                    bound |= names
                elif t.text == '{': self.braces(k + 1, t.match, bound)
                else: self.parts(k + 1, t.match, bound)
                k = t.match + 1
            elif t.text == '[' and t.match is not None and t.match < j:
                self.cases(k + 1, t.match, bound)
                k = t.match + 1
            elif t.text == 'λ':
                k += 1
                while k < j and toks[k].text != '.':
                    if toks[k].text in OPEN:
                        tele = self.telescope(k)
                        if tele: self.term(tele[1], toks[k].match, bound); bound |= tele[0]
                        else: bound |= self.names_in(k, toks[k].match)
                        k = toks[k].match + 1
                    else: bound |= self.names_in(k, k + 1); k += 1
                k += 1
            elif t.text == 'let':
                eq = self.find(k + 1, j, {'='})
                colon = self.find(k + 1, eq, {':'})
                names = self.names_in(k + 1, k + 2) if toks[k + 1].text not in OPEN else self.names_in(k + 1, colon)
                args = self.names_in(k + 2, colon) if toks[k + 1].text not in OPEN else set()
                self.term(colon + 1, eq, bound)
                end = self.let_end(eq + 1, j)
                self.term(eq + 1, end, bound | args)
                bound |= names
                k = end + 1
            elif t.text == 'open' and k + 1 < j and toks[k + 1].text not in ('→', '×', '='):
                m = self.find(k + 1, j, {'{'})
                use = self.find(k + 1, j, {'use'})
                if use < j and m == use + 1: bound |= self.names_in(m, toks[m].match)
                k += 1
            elif k + 1 < j and toks[k + 1].text == '←':
                bound |= self.names_in(k, k + 1)
                k += 2
            else:
                if t.text not in CLOSE and t.text not in NOT_NAMES and t.text not in OPEN and not t.text.startswith('"'): self.ident(t, bound)
                k += 1

    def parts(self, i, j, bound):
        for a, b in self.split(i, j, {',', ';'}): self.term(a, b, bound)

    def braces(self, i, j, bound):
        """fields of a record, or a named argument: the label isn't a use"""
        for a, b in self.split(i, j, {';'}):
            if a + 1 < b and self.toks[a + 1].text == '=': self.term(a + 2, b, bound)
            else: self.parts(a, b, bound)

    def cases(self, i, j, bound):
        for a, b in self.split(i, j, {'|'}):
            k = self.find(a, b, {'↦'})
            if k < b: self.term(k + 1, b, bound | self.names_in(a, k))
            else: self.parts(a, b, bound)

    # ---- layout

    def file(self, skip):
        text = self.text
        for a, b in skip: text = text[:a] + re.sub(r'[^\n]', ' ', text[a:b]) + text[b:]
        self.toks = tokens_of(text)
        self.block(0, len(self.toks), set())

    def items(self, i, j):
        """the items of a block: each begins at the column of the first"""
        if i >= j: return
        col, start = self.toks[i].col, i
        for k in range(i + 1, j):
            if self.toks[k].line != self.toks[k - 1].line and self.toks[k].col <= col and self.toks[k].text not in CLOSE:
                yield start, k
                start = k
        yield start, j

    def block(self, i, j, bound):
        items = list(self.items(i, j))
        defined = set()
        for a, b in items:
            d = self.defined_by(a, b)
            if d and self.toks[a].col > 0: defined.add(d)
        bound = bound | defined
        for a, b in items: self.item(a, b, bound)
        return defined

    def head(self, a, b):
        k = a
        while k < b and self.toks[k].text in ('pub', 'abbrev', 'unfoldable', 'opaque'): k += 1
        return k

    def defined_by(self, a, b):
        k = self.head(a, b)
        if k < b and self.toks[k].text in ('record', 'data'): return self.toks[k + 1].text
        if k + 1 < b and self.find(k, b, {':'}) < self.find(k, b, {'='}): return self.toks[k].text
        return None

    def where_at(self, a, b):
        """the `where` that ends a line or begins one"""
        k = a
        while k < b:
            t = self.toks[k]
            if t.text == 'where' and (k + 1 == b or self.toks[k + 1].line != t.line): return k
            k = t.match + 1 if t.text in OPEN and t.match is not None and t.match < b else k + 1
        return b

    def item(self, a, b, bound):
        toks = self.toks
        k = self.head(a, b)
        if k >= b: return
        word = toks[k].text
        where = self.where_at(k, b)
        if word in ('use', 'mod'): return
        if word == 'module':
            inner = set(bound)
            inner |= self.params(k + 1, where, bound)
            self.block(where + 1, b, inner)
            return
        if word in ('record', 'data') and where < b:
            self.ident(toks[k + 1], bound)
            inner = bound | self.params(k + 2, where, bound)
            for x, y in self.items(where + 1, b):
                h = self.head(x, y)
                colon = self.find(h, y, {':'})
                if colon < y:
                    self.term(colon + 1, y, inner)
                    if word == 'record': inner = inner | self.names_in(h, colon)
                else: self.term(h, y, inner)
            return
        colon, eq = self.find(k, where, {':'}), self.find(k, where, {'='})
        if colon < eq:
            self.ident(toks[k], bound)
            inner = bound | self.params(k + 1, colon, bound)
            unf = self.find(colon, where, {'unfolding'})
            self.term(colon + 1, unf, inner)
            self.term(unf + 1, where, bound)
        elif eq < where:
            self.ident(toks[k], bound)
            inner = bound | self.names_in(k + 1, eq)
            local = set()
            if where < b:
                for x, y in self.items(where + 1, b):
                    d = self.defined_by(x, y)
                    if d: local.add(d)
            self.term(eq + 1, where, inner | local)
            if where < b: self.block(where + 1, b, inner | local)
        else:
            self.term(k, where, bound)
            if where < b: self.block(where + 1, b, bound)

    def params(self, i, j, bound):
        """the names that a telescope binds; its types are walked"""
        names, k = set(), i
        while k < j:
            t = self.toks[k]
            if t.text in OPEN and t.match is not None:
                tele = self.telescope(k)
                if tele:
                    self.term(tele[1], t.match, bound | names)
                    names |= tele[0]
                else:
                    names |= self.names_in(k, t.match)
                k = t.match + 1
            else:
                if t.text not in NOT_NAMES: self.ident(t, bound | names)
                k += 1
        return names


# ---- imports

USE = re.compile(r'(?P<head>(?:pub )?(?:ghost )?(?:pub )?use )Rattle\.(?P<crate>\w+)\.specs\.(?P<path>[\w.]+?)(?:\.\{(?P<names>[^}]*)\}|(?P<alias> as (?P<as>[\w«»]+)))?(?=[;\s]|$)')


class Names:
    """What a module of specs/ gives out under which name: (crate, file) -> {name: new}."""
    def __init__(self, table, root):
        self.given = {}
        for crate, file, old, new in table: self.given.setdefault((crate, file), {})[old] = new
        # what a module passes on
        again = True
        uses = []
        for path in glob.glob(f'{root}/crates/*/specs/**/*.antt', recursive=True):
            text = open(path, encoding='utf-8').read()
            if 'pub use' not in text: continue
            crate, file = re.search(r'crates/(\w+)/specs/(.*)\.antt$', path).groups()
            for m in USE.finditer(text):
                if 'pub' in m['head'] and m['names'] is not None: uses.append(((crate, file), (m['crate'], m['path']), m['names']))
        while again:
            again = False
            for to, frm, names in uses:
                for name in names.split(','):
                    name = name.strip()
                    if ' as ' in name: continue
                    new = self.given.get(frm, {}).get(name)
                    if new and self.given.setdefault(to, {}).get(name) != new: self.given[to][name] = new; again = True

    def of(self, crate, path): return self.given.get((crate, path.replace('.', '/')), {})


def imports(text, names):
    """for each import: where it holds from, what it brings, and the changes in the line itself"""
    plain, aliases, changes, spans = [], [], [], []
    for m in USE.finditer(text):
        spans.append(m.span())
        given = names.of(m['crate'], m['path'])
        if m['names'] is not None:
            at = m.start('names')
            for piece in m['names'].split(','):
                word = piece.strip()
                start = at + len(piece) - len(piece.lstrip())
                target, _, alias = word.partition(' as ')
                if target in given:
                    changes.append((start, start + len(target), given[target]))
                    if not alias: plain.append((m.start(), target, given[target]))
                    else: plain.append((m.start(), alias.strip(), None))
                elif word: plain.append((m.start(), (alias or target).strip(), None))
                at += len(piece) + 1
        elif m['as']:
            aliases.append((m.start(), m['as'], given))
        else:
            # a module under its last name; or, as `use M.F.a`, one item
            aliases.append((m.start(), m['path'].split('.')[-1], given))
    return plain, aliases, changes, spans


def comment_changes(text, plain, comment):
    out = []
    for m in re.finditer(comment, text, re.M):
        for w in re.finditer(r'`([^`\n]+)`', m.group()):
            if w.group(1) in plain and plain[w.group(1)]: out.append((m.start() + w.start(1), m.start() + w.end(1), plain[w.group(1)]))
    return out


def antt_changes(text, own, names, notes):
    """own: the (crate, file) of a module of specs/, or None"""
    plain_list, alias_list, changes, spans = imports(text, names)
    plain = {name: new for _, name, new in plain_list if new}
    other = {name for _, name, new in plain_list if not new}
    if own:
        for old, new in names.of(*own).items():
            if old not in other: plain.setdefault(old, new)
    aliases = {a: g for _, a, g in alias_list}
    if not plain and not any(aliases.values()): return changes
    walk = Walk(text, plain, aliases)
    walk.file(spans)
    changes = changes + walk.changes + comment_changes(text, plain, r'--[^\n]*')
    for line, new, what in walk.clashes: notes.append((line, new, what))
    check_new(text, walk.toks, plain, notes)
    return changes


def check_new(text, toks, plain, notes):
    for t in toks:
        head = t.text.split('.')[0]
        for old, new in plain.items():
            if head == new: notes.append((t.line + 1, new, f'stands there already (for {old})'))


# ---- Rust files

def blank_rust(text):
    """the text with comments and strings blanked"""
    blank = lambda m: re.sub(r'[^\n]', ' ', m.group())
    return re.sub(r'//[^\n]*|b?"(?:\\.|[^"\\])*"|b?\'(?:\\.|[^\'\\\n])\'|/\*.*?\*/', blank, text, flags=re.S)


def match_brace(code, at):
    depth = 0
    for k in range(at, len(code)):
        if code[k] == '{': depth += 1
        elif code[k] == '}':
            depth -= 1
            if depth == 0: return k
    return len(code)


CLAUSE = re.compile(r'\b(?:ensures|requires|invariant|decreases|measure)\b\*?(?:[ \n]+\w+)?\s*\{|\bghost\b\*?[ \n]+[\w]+\s*(?:[:=]|)\s*\{')


def rust_params(code, at):
    """the names of the parameters of the function whose clause stands at `at`"""
    fn = None
    for m in re.finditer(r'\bfn\s+\w+', code[:at]): fn = m
    if not fn: return set()
    k = code.find('(', fn.end())
    lt = code.find('<', fn.end())
    if 0 <= lt < k and not code[fn.end():lt].strip():
        depth = 0
        for q in range(lt, len(code)):
            if code[q] == '<': depth += 1
            elif code[q] == '>' and code[q - 1] != '-':
                depth -= 1
                if depth == 0: k = code.find('(', q); break
    depth, end = 0, k
    for q in range(k, len(code)):
        if code[q] in '([{': depth += 1
        elif code[q] in ')]}':
            depth -= 1
            if depth == 0: end = q; break
    params = code[k + 1:end]
    names, depth, seg = {'result', 'self'}, 0, ''
    for ch in params + ',':
        if ch in '([{<': depth += 1
        elif ch in ')]}>': depth -= 1
        if ch == ',' and depth <= 0:
            head = seg.split(':')[0]
            names |= set(re.findall(r'\b[a-z_]\w*\b', head)) - {'mut', 'ref'}
            seg = ''
        else: seg += ch
    for m in re.finditer(r'\bghost\s+(\w+)\s*:', code[end:at]): names.add(m.group(1))
    return names


def rust_changes(text, crate, names, notes):
    code = blank_rust(text)
    changes = []
    # attributes
    for m in re.finditer(r'\b(\w+)::specs::(\w+)::(\w+)', text):
        own = crate if m[1] == 'crate' else m[1]
        new = names.of(own, m[2]).get(m[3])
        if new: changes.append((m.start(3), m.end(3), new))
    plain_list, alias_list, use_changes, spans = imports(text, names)
    changes += use_changes
    if not any(new for _, _, new in plain_list) and not any(g for _, _, g in alias_list): return changes
    def region(at):
        """the braces round an import"""
        depth = 0
        for k in range(at - 1, -1, -1):
            if code[k] == '}': depth += 1
            elif code[k] == '{':
                if depth == 0: return k, match_brace(code, k)
                depth -= 1
        return -1, len(code)
    plain_at = [(region(at), name, new) for at, name, new in plain_list]
    alias_at = [(region(at), name, given) for at, name, given in alias_list]
    def scope(at):
        plain, aliases = {}, {}
        for (a, b), name, new in sorted(plain_at, key=lambda p: p[0][0]):
            if a <= at <= b: plain[name] = new
        for (a, b), name, given in sorted(alias_at, key=lambda p: p[0][0]):
            if a <= at <= b: aliases[name] = given
        return {n: new for n, new in plain.items() if new}, aliases
    done = -1
    for m in CLAUSE.finditer(code):
        start = m.end() - 1
        if start < done or m.group().startswith('ghost use'): continue
        end = match_brace(code, start)
        plain, aliases = scope(start)
        is_contract = re.match(r'ensures|requires|ghost\*?\s+\w+\s*:', m.group())
        inside_fn = rust_params(code, m.start()) if is_contract else {'result'}
        walk = Walk(text, plain, aliases)
        walk.toks = tokens_of(text, start + 1, end)
        walk.term(0, len(walk.toks), inside_fn)
        changes += walk.changes
        for line, new, what in walk.clashes: notes.append((line, new, what))
        check_new(text, walk.toks, plain, notes)
        done = end
    every = {n: new for _, n, new in plain_list if new}
    changes += comment_changes(text, every, r'//[^\n]*')
    return changes


def apply(text, changes):
    out, last = [], 0
    for a, b, new in sorted(set(changes)):
        out += [text[last:a], new]
        last = b
    return ''.join(out) + text[last:]


def apply_slice(text, changes, a, b):
    return apply(text[a:b], [(x - a, y - a, new) for x, y, new in changes if a <= x and y <= b])


# ---- all files

def changes_for(path, text, names, notes):
    m = re.search(r'crates/(\w+)/(src|specs|proofs)/(.*)\.(antt|rt)$', path)
    crate, folder, file, kind = m.groups()
    if kind == 'rt': return rust_changes(text, crate, names, notes)
    return antt_changes(text, (crate, file) if folder == 'specs' else None, names, notes)


def edit_changed(root, path, names, notes):
    """the edit for the renamed tree: what it replaces, and what it puts there, as they read in the file"""
    lines = open(path, encoding='utf-8').read().split('\n')
    crate = path.split('/')[-3] if '/must-fail/' in path else path.split('/')[-2]
    target, text, out = None, None, []
    pending = None
    for line in lines:
        if line.startswith('file: '):
            name = line[6:].strip()
            target = f'{root}/crates/{name}' if '/wrong_rules/' in path else f'{root}/crates/{crate}/{name}'
            text = open(target, encoding='utf-8').read() if os.path.exists(target) else None
        elif line.startswith('old: ') and text is not None:
            old = line[5:]
            if text.count(old) != 1:
                notes.append((0, old[:80], f'stands {text.count(old)} times in {target}')); pending = None
            else:
                at = text.index(old)
                changes = changes_for(target, text, names, [])
                pending = (at, len(old))
                line = 'old: ' + apply_slice(text, changes, at, at + len(old))
        elif line.startswith('new: ') and text is not None and pending:
            new = line[5:]
            at, size = pending
            text = text[:at] + new + text[at + size:]
            changes = changes_for(target, text, names, [])
            line = 'new: ' + apply_slice(text, changes, at, at + len(new))
            pending = None
        out.append(line)
    return '\n'.join(out)


def document_changed(root, path, text, names, by_word, notes, given):
    """backticked words of a line, or of a table's row, that names the module's file"""
    lines, out, k, start = text.split('\n'), [], 0, 0
    while k < len(lines):
        if lines[k].startswith('|') or not lines[k].strip(): block = [lines[k]]; k += 1
        else:
            block = []
            first = True
            while k < len(lines) and lines[k].strip() and not lines[k].startswith('|') and (first or not re.match(r'\s*(?:[-*]|\d+\.) ', lines[k])):
                block.append(lines[k]); k += 1; first = False
        out.append(paragraph('\n'.join(block), names, by_word | set(given), notes, start + 1, given))
        start = k
    return '\n'.join(out)


def paragraph(text, names, by_word, notes, line, given_here):
    files, folder = [], None
    for m in re.finditer(r'`((?:crates/)?(?:(\w+)/specs/)?(\w+)\.antt)`', text):
        crate = m[2] or folder
        if m[2]: folder = m[2]
        if crate: files.append((m.start(), crate, m[3]))
    if not any(w.group(1) in by_word for w in re.finditer(r'`(\w+)`', text)): return text
    # `a`, `b` and `c` in `FILE`
    changes, settled = [], set()
    for m in re.finditer(r'((?:`\w+`(?:,\s+|\s+and\s+|/)?)+)\s+(?:in|of)\s+`(?:crates/)?(\w+)/specs/(\w+)\.antt`', text):
        given = names.of(m[2], m[3])
        for w in re.finditer(r'`(\w+)`', m[1]):
            settled.add(m.start() + w.start(1))
            if w.group(1) in given: changes.append((m.start() + w.start(1), m.start() + w.end(1), given[w.group(1)]))
    for w in re.finditer(r'`(\w+)`', text):
        if w.start(1) in settled or w.group(1) not in by_word: continue
        fits = {names.of(crate, file)[w.group(1)] for _, crate, file in files if w.group(1) in names.of(crate, file)}
        at = text.count('\n', 0, w.start()) + line
        if not fits and w.group(1) in given_here: fits = {given_here[w.group(1)]}
        if len(fits) == 1: changes.append((w.start(1), w.end(1), fits.pop()))
        else: notes.append((at, w.group(1), f'in backticks, left as it is: {text.splitlines()[at - line].strip()[:160]}'))
    return apply(text, changes)


def main():
    words = [a for a in sys.argv[1:] if not a.startswith('--')]
    root, table_path = words[0].rstrip('/'), words[1]
    dry, quiet = '--dry' in sys.argv, '--quiet' in sys.argv
    say = lambda *a: print(*a, file=sys.stderr)
    defined = {}
    for crate, file, at, word, _ in definitions(root): defined.setdefault(word, []).append((crate, file, at))
    table, status, in_documents = [], 0, {}
    for n, line in enumerate(open(table_path, encoding='utf-8'), 1):
        line = line.split('#')[0].split()
        if not line: continue
        if len(line) != 4: say(f'line {n}: CRATE FILE OLD NEW wanted'); status = 1; continue
        crate, file, old, new = line
        if crate == 'docs': in_documents.setdefault(file, {})[old] = new; continue
        if not any(d[:2] == (crate, file) for d in defined.get(old, [])):
            if any(d[:2] == (crate, file) for d in defined.get(new, [])): say(f'{crate}/{file}: {old} is {new} already')
            else: say(f'{crate}/{file}: no definition {old}'); status = 1
            continue
        table.append((crate, file, old, new))
    gone = {(c, f, o) for c, f, o, _ in table}
    news = {}
    for crate, file, old, new in table:
        for d in defined.get(new, []):
            if (d[0], d[1], new) not in gone: say(f'{crate}/{file}: {old} -> {new}, which {d[0]}/{d[1]}:{d[2]} defines'); status = 1
        if new in news: say(f'{new} is given twice'); status = 1
        news[new] = 1
    if status and not dry: sys.exit(status)
    names = Names(table, root)
    by_word = {old for _, _, old, _ in table}
    results, hidden = {}, False
    paths = sorted(set(glob.glob(f'{root}/crates/*/specs/**/*.antt', recursive=True) + glob.glob(f'{root}/crates/*/proofs/**/*.antt', recursive=True)
        + glob.glob(f'{root}/crates/*/src/**/*.rt', recursive=True)))
    word_in = re.compile(r'\b(?:' + '|'.join(sorted(map(re.escape, by_word), key=len, reverse=True)) + r')\b')
    count = 0
    for path in paths:
        text = open(path, encoding='utf-8').read()
        if not word_in.search(text): continue
        notes = []
        changes = sorted(set(changes_for(path, text, names, notes)))
        count += len(changes)
        changed = apply(text, changes)
        if changed != text: results[path] = changed
        if changes:
            for line, new, what in sorted(set(notes)):
                say(f'{path[len(root) + 1:]}:{line}: {new} {what}')
                if what.startswith('HIDDEN'): hidden = True
    for path in sorted(glob.glob(f'{root}/crates/*/must-fail/*.edit') + glob.glob(f'{root}/wrong_bodies/*/*.edit') + glob.glob(f'{root}/wrong_rules/*.edit')):
        text = open(path, encoding='utf-8').read()
        if not word_in.search(text): continue
        notes = []
        changed = edit_changed(root, path, names, notes)
        for _, old, what in notes: say(f'{path[len(root) + 1:]}: {old} {what}')
        if changed != text: results[path] = changed
    for path in [f'{root}/README.md'] + sorted(glob.glob(f'{root}/docs/*.md')):
        text = open(path, encoding='utf-8').read()
        notes = []
        changed = document_changed(root, path, text, names, by_word, notes, in_documents.get(os.path.basename(path), {}))
        for line, old, what in notes:
            if not quiet: say(f'{path[len(root) + 1:]}:{line}: {old} {what}')
        if changed != text: results[path] = changed
    if not dry and not hidden:
        for path, changed in results.items(): open(path, 'w', encoding='utf-8').write(changed)
    print(f'{len(table)} definitions, {count} places, {len(results)} files' + (' (nothing written)' if dry or hidden else ''))
    sys.exit(1 if status or hidden else 0)


if __name__ == '__main__': main()

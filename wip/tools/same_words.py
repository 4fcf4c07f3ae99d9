#!/usr/bin/env python3
"""same_words.py ROOT [--participles]: the words that two files of specs/ define

A word is a function, an abbreviation, a record or a data type; fields, constructors and operators are left out. Each word is printed with
the line of each of its definitions, those of two crates first, then those of two files of one crate. With --participles instead the
functions whose name is one word that ends as a participle does."""
import glob, re, sys
DEFINES = re.compile(r"^(?:(?:(?:pub|abbrev|unfoldable)\s+)*(?:record|data)\s+([A-Za-z_][\w'-]*)|(?:(?:pub|abbrev|unfoldable)\s+)+([A-Za-z_][\w'-]*)(?=\s*[:({])|([A-Za-z_][\w'-]*)\s+:\s)")
PARTICIPLES = re.compile(r'^([a-z]+(?:ed|en|ing)|begun|told|held|kept|met|led|put|said|sent|left|seen|lost|found|made|done|built|cut|drawn|known|shown|spent|heard|taught|read|spelt|set)$')


def definitions(root):
    """(crate, file, line, word, text) of each definition in specs/"""
    for path in sorted(glob.glob(f'{root}/crates/*/specs/**/*.antt', recursive=True)):
        crate, name = re.search(r'crates/(\w+)/specs/(.*)\.antt$', path).groups()
        if name == 'Lib': continue
        for at, line in enumerate(open(path, encoding='utf-8'), 1):
            if line[:1].isspace() or line.startswith('--') or re.match(r'(pub )?use\b|(pub )?mod\b', line): continue
            m = DEFINES.match(line)
            if m: yield crate, name, at, m.group(1) or m.group(2) or m.group(3), line.rstrip('\n')


if __name__ == '__main__':
    root = sys.argv[1] if len(sys.argv) > 1 else '.'
    words = {}
    for d in definitions(root): words.setdefault(d[3], []).append(d)
    if '--participles' in sys.argv:
        chosen = [(w, ds) for w, ds in sorted(words.items()) if PARTICIPLES.match(w)]
    else:
        several = lambda ds: len({(d[0], d[1]) for d in ds}) > 1
        chosen = [(w, ds) for w, ds in sorted(words.items()) if several(ds) and len({d[0] for d in ds}) > 1]
        print(f'{len(chosen)} words in two crates')
        within = [(w, ds) for w, ds in sorted(words.items()) if several(ds) and len({d[0] for d in ds}) == 1]
        chosen += within
        print(f'{len(within)} words in two files of one crate')
    for w, ds in chosen:
        print(f'\n{w}')
        for crate, name, at, _, text in ds: print(f'  crates/{crate}/specs/{name}.antt:{at}: {text[:200]}')

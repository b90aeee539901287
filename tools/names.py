#!/usr/bin/env python3
"""names.py [ROOT]: bring the repository's own definitions, lemmas, fields and binders to one spelling, in place.

A word of ours that is written with dashes or in camel case becomes snake case (isDone: is_done, length-pasted: length_pasted); a type with a
dash becomes camel case (Went-on: WentOn). Functions of src/, exported names, strings and files keep theirs. A name that would fall together
with another one of its own gets `_lem`. It reads the declarations of specs/ and proofs/, and turns each word there, in the clauses of src/, and
in comments between back quotes. What a file imports from the library keeps its spelling there. Run once, after port.py."""
import collections, glob, os, re, sys

ROOT = sys.argv[1] if len(sys.argv) > 1 else '.'
ID = r"[^\s(){}\[\],;.λ@\"`«»]+"
WORD = re.compile(ID)
# not the field of a value
LOOSE = re.compile(r'(?<![.])(?<![^\s(){}\[\],;.λ@"`«»])' + ID)
# what the library says in another way by now
SPELT = {'getD': 'get_or', 'P1': 'p1'}
# goals of functions: Rattle makes these names
MADE = re.compile(r'^(loop|returns|Need|if|then|else|in|overflow|bounds|invariant|decreases|nonzero|cast|index)-')


def snake(name):
    for old, new in SPELT.items():
        name = re.sub(r'(?<![A-Za-z])%s(?![a-z])' % old if old != 'P1' else r'P1', '-' + new + '-', name)
    name = re.sub(r'--+', '-', name).strip('-')
    name = re.sub(r'([a-z0-9])([A-Z])', lambda m: m.group(1) + '_' + m.group(2).lower(), name)
    return re.sub(r"(?<=[A-Za-z0-9'₀-₉])-(?=[A-Za-z0-9])", '_', name)


def camel(name):
    return ''.join(p[:1].upper() + p[1:] for p in name.split('-'))


def turned(name):
    if re.match(r"[A-Z][A-Za-z]+-[a-z]", name) and not name.startswith('Need-'):
        return camel(name)
    return snake(name) if name[:1].islower() else name


def code_of(line):
    """The line without its comment."""
    return line.split('--')[0] if not line.lstrip().startswith('--') else ''


def declared(text):
    for line in text.split('\n'):
        s = code_of(line)
        if re.match(r'\s*(pub )?use ', s):
            continue
        m = re.match(r'\s*(?:(?:pub|abbrev|unfoldable|record|data|ruleset)\s+)*((?:' + ID + r'\s+)*?' + ID + r')\s+:\s', s)
        if m:
            yield from m.group(1).split()
        for m in re.finditer(r'[({]((?:' + ID + r'\s+)*' + ID + r')\s+:\s', s):
            yield from m.group(1).split()
        for m in re.finditer(r'\blet\s+(' + ID + r')\s+[:=]', s):
            yield m.group(1)
        for m in re.finditer(r'λ ((?:' + ID + r'\s+)*' + ID + r')\.\s', s):
            yield from m.group(1).split()


def read(p):
    return open(p, encoding='utf-8').read()


def main():
    antt = sorted(p for p in glob.glob(ROOT + '/crates/*/**/*.antt', recursive=True) if '/out/' not in p)
    rust = sorted(p for p in glob.glob(ROOT + '/crates/*/src/**/*.rt', recursive=True))
    names = set()
    every = collections.defaultdict(set)
    for p in antt:
        walk = bool(re.search(r'/proofs/([^/]+/)+(Proof|Answers|Invariants)\.antt$', p))
        for n in declared(read(p)):
            if walk and MADE.match(n):
                continue
            if not walk or turned(n) != n:
                every[n].add(p)
            if turned(n) != n and re.match(r"[A-Za-z]", n):
                names.add(n)
    new = {n: turned(n) for n in names}
    # two of ours that fall together in a file: the one with dashes, a lemma mostly, gets an ending; a definition of specs/ never does
    said = {p: {m.group(0) for m in LOOSE.finditer(read(p))} for p in antt}
    back = collections.defaultdict(set)
    for n in every:
        back[new.get(n, n)].add(n)
    local = collections.defaultdict(dict)
    for n, group in sorted(back.items()):
        if len(group) < 2:
            continue
        rank = lambda g: (0 if '-' not in g and g != n and any('/specs/' in q for q in every[g]) else 1 if g == n else 2 if '-' not in g else 3, g)
        group = sorted(group, key=rank)
        for i, g in enumerate(group):
            for f in group[:i]:
                both = [p for p in antt if f in said[p] and g in said[p]]
                if not both:
                    continue
                print(f'falls together: {f} and {g}: {g} becomes {n}_lem; in', ' '.join('/'.join(q.split('/')[-3:]) for q in both[:3]))
                if g != n:
                    new[g] = n + '_lem'
                else:
                    for q in antt:
                        if q in every[g] or re.search(r'use [^\s{;]+\.\{[^}]*(?<![\w-])%s(?![\w-])' % re.escape(g), read(q)):
                            local[q][g] = n + '_lem'
                break
    own = {p.split('/')[-1] for p in glob.glob(ROOT + '/crates/*')}

    def foreign(text):
        """Words that a file has of the library."""
        out = set()
        for m in re.finditer(r'use ([^\s{;]+?)\.\{([^}]*)\}', text):
            parts = m.group(1).split('.')
            if not (parts[0] == 'Rattle' and len(parts) > 1 and parts[1] in own):
                for w in m.group(2).split(','):
                    out |= set(w.split())
        return out

    count = 0
    for p in antt + rust:
        text = read(p)
        keep = foreign(text)
        for n in sorted({m.group(0) for m in WORD.finditer(text)} & set(new)):
            if new[n] in keep:
                print(f'falls together with a word of the library: {n}, in', p)
        walk = bool(re.search(r'/proofs/([^/]+/)+(Proof|Answers|Invariants)\.antt$', p))

        def word(m):
            w = m.group(0)
            if w in keep or (walk and MADE.match(w)):
                return w
            if w in local[p] and not p.endswith('.rt') and m.string[m.start() - 1:m.start()] != '.':
                return local[p][w]
            return new.get(w, w)

        def quoted(m):
            return '`' + WORD.sub(word, m.group(1)) + '`'

        lines = []
        for line in text.split('\n'):
            if p.endswith('.antt'):
                at = line.find('--') if '--' in line else len(line)
                code, comment = line[:at], line[at:]
                code = WORD.sub(word, code)
                comment = re.sub(r'`([^`]*)`', quoted, comment)
            else:
                at = line.find('//') if '//' in line else len(line)
                code, comment = line[:at], line[at:]
                # strings keep their text
                code = ''.join(part if i % 2 else WORD.sub(word, part) for i, part in enumerate(re.split(r'("(?:[^"\\]|\\.)*")', code)))
                comment = re.sub(r'`([^`]*)`', quoted, comment)
            lines.append(code + comment)
        after = '\n'.join(lines)
        if after != text:
            open(p, 'w', encoding='utf-8').write(after)
            count += 1
    print(len(new), 'names,', count, 'files')


main()

#!/usr/bin/env python3
"""The places of docs/DESIGN-PASS.md in src/, point by point: python3 tools/design_places.py [COMMIT] [--list]

Without a commit it reads the files as they stand. It counts by text, so a place of points 2 and 4 to 7 is a candidate that is
to be read; the page says what each of them is.
"""
import collections
import re
import subprocess
import sys


def files(commit):
    if commit is None:
        names = subprocess.run(['git', 'ls-files', 'crates'], capture_output=True, text=True, check=True).stdout.split()
        return {n: open(n, encoding='utf-8').read() for n in names if n.endswith(('.rt', '.antt'))}
    names = subprocess.run(['git', 'ls-tree', '-r', '--name-only', commit, 'crates'], capture_output=True, text=True, check=True)
    wanted = [n for n in names.stdout.split() if n.endswith(('.rt', '.antt'))]
    read = subprocess.run(['git', 'cat-file', '--batch'], input=''.join(f'{commit}:{n}\n' for n in wanted).encode(),
                          capture_output=True, check=True).stdout
    said = {}
    for name in wanted:
        head, read = read.split(b'\n', 1)
        size = int(head.split()[2])
        said[name], read = read[:size].decode(), read[size + 1:]
    return said


def bare(text):
    return re.sub(r'//[^\n]*', '', text)


HEAD = re.compile(r'^[ ]*(?:pub )?(?:const )?(?:extern "C" )?fn (\w+)(?:<[^(]*>)?\(', re.M)


def functions(text):
    """Name, parameters, clauses and body of each function of a file."""
    text = bare(text)
    heads = list(HEAD.finditer(text))
    for at, head in enumerate(heads):
        end = heads[at + 1].start() if at + 1 < len(heads) else len(text)
        whole = text[head.end() - 1:end]
        depth = 0
        for k, c in enumerate(whole):
            depth += (c == '(') - (c == ')')
            if depth == 0:
                break
        parameters = [p.strip() for p in re.split(r',(?![^<\[(]*[>\])])', whole[1:k]) if p.strip()]
        rest = whole[k + 1:]
        opening = re.search(r'^[ ]*\{', rest, re.M)
        clauses = rest[:opening.start()] if opening else rest
        yield head.group(1), parameters, clauses, rest[opening.start():] if opening else ''


def main():
    words = [w for w in sys.argv[1:] if not w.startswith('--')]
    show = '--list' in sys.argv
    said = files(words[0] if words else None)
    src = {n: t for n, t in said.items() if '/src/' in n}
    proofs = {n: t for n, t in said.items() if '/proofs/' in n}
    found = collections.defaultdict(list)

    for name, text in src.items():
        crate = name.split('/')[1]
        code = bare(text)
        for m in re.finditer(r'^[ ]*(?:pub )?enum (\w+) \{(.*?)^\}', code, re.M | re.S):
            variants = re.findall(r'^    (\w+)', m.group(2), re.M)
            found['1 enums'].append(f'{crate}: {m.group(1)} {{{", ".join(variants)}}}')
        for m in re.finditer(r'\b(direction|side|track_a|track_b|from_at|to_at|w|kind): (u8|u32|usize)\b', code):
            found['1 numbers for kinds'].append(f'{crate}: {m.group(0)}')
        for m in re.finditer(r'^[ ]*(?:while\b|loop\b)[^\n]*\{', code, re.M):
            found['3 loops'].append(f'{crate}: {m.group(0).strip()}')
        for m in re.finditer(r'^[ ]*for\b[^\n]*\{', code, re.M):
            found['3 loops in today\'s form (for comparison)'].append(f'{crate}: {m.group(0).strip()}')
        for m in re.finditer(r'\b(\w+): (\w+),?\n\s*(\w+): ', code):
            if m.group(1) == m.group(2):
                found['4 fields named twice'].append(f'{crate}: {m.group(1)}')

    seen, facts, groups = collections.defaultdict(list), collections.defaultdict(list), collections.defaultdict(list)
    for name, text in src.items():
        crate = name.split('/')[1]
        for fn, parameters, clauses, body in functions(text):
            shape = re.sub(r'\b[a-z]\w*\b', 'x', re.sub(r'\b\d\w*\b|\b[A-Z_]{2,}\b', '0', re.sub(r'\b(u8|u16|u32|u64|usize|bool)\b', 'T', body)))
            shape = re.sub(r'\s+', '', re.sub(r'\b[A-Z]\w+\b', 'E', shape))
            if len(re.findall(r'\w', shape)) >= 15:
                seen[shape].append(f'{crate}: {fn}')
            if re.match(r'(same|equal|eq|cmp|compare|stand|order|number_of|place_of|code_of|to|from|as|into|copy|fmt|clone)(_|$)', fn):
                found['4 functions by name'].append(f'{crate}: {fn}')
            for m in re.finditer(r'requires(?: (\w+))? \{((?:[^{}]|\{[^{}]*\})*)\}', clauses):
                facts[' '.join(m.group(2).split())].append(f'{crate}: {fn}')
            names = [p.split(':')[0].replace('mut ', '').strip() for p in parameters if ':' in p]
            for size in range(3, len(names) + 1):
                for a in range(len(names) - size + 1):
                    groups[tuple(names[a:a + size])].append(f'{crate}: {fn}')
            slices = [p for p in parameters if re.search(r'&(?:mut )?\[', p)]
            if len(slices) >= 2:
                found['6 functions with parallel slices'].append(f'{crate}: {fn} {len(slices)}')
            if any(re.search(r': &(?:mut )?\[usize\]', p) for p in parameters):
                found['6 functions over tables of indices'].append(f'{crate}: {fn}')
            flags = [p for p in names if any(q.strip().startswith(p + ': bool') for q in parameters)]
            if flags:
                found['7 functions with a flag'].append(f'{crate}: {fn} {flags}')
            if re.search(r'\bfn\(|impl Fn|dyn ', ' '.join(parameters)):
                found['7 functions that take one (for comparison)'].append(f'{crate}: {fn}')
    for shape, places in seen.items():
        if len(places) > 1:
            found['2 functions of one shape'].append('; '.join(places))
    for fact, places in facts.items():
        if len(places) >= 3:
            found['5 facts in three contracts'].append(f'{len(places)} times: {fact}')
    wide = {g: p for g, p in groups.items() if len(p) >= 3}
    for group, places in wide.items():
        if not any(len(g) > len(group) and len(p) >= len(places) and any(g[a:a + len(group)] == group for a in range(len(g)))
                   for g, p in wide.items()):
            found['5 parameters together'].append(f'{len(places)} times: {", ".join(group)}')
    for name, text in proofs.items():
        if name.endswith('/Answers.antt'):
            found['8 answers'] += re.findall(r': goal\.[\w-]+', text)
        elif name.endswith('/Invariants.antt') or name.endswith('/Lib.antt'):
            pass
        else:
            found['8 lemmas'] += re.findall(r'^\s*(?:pub )?([\w\'-]+) :', text, re.M)
    found['8 lines of proofs'] = ['' for t in proofs.values() for _ in t.splitlines()]
    for key in sorted(found):
        print(f'{key}: {len(found[key])}')
        if show and not key.startswith('8'):
            for place in found[key]:
                print('    ' + place)


main()

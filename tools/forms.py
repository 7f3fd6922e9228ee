#!/usr/bin/env python3
"""Counts the places in crates/*/src that docs/DESIGN-PASS.md speaks of, in the files of a commit (or, with none given, as they stand):

    python3 tools/forms.py [COMMIT] [-v]        -v lists each place

What a pattern cannot see (twins, buffers with a length beside them, switches on a step) the page lists by name.
"""
import itertools
import re
import subprocess
import sys


def sources(commit):
    """the name and text of each source file"""
    if commit is None:
        names = subprocess.run(['git', 'ls-files', 'crates/*/src/*.rt'], capture_output=True, text=True, check=True).stdout.split()
        return {n: open(n, encoding='utf-8').read() for n in names}
    listed = subprocess.run(['git', 'ls-tree', '-r', '--name-only', commit, 'crates'], capture_output=True, text=True, check=True).stdout.split()
    names = [n for n in listed if re.fullmatch(r'crates/\w+/src/.*\.rt', n)]
    show = lambda n: subprocess.run(['git', 'show', f'{commit}:{n}'], capture_output=True, text=True, check=True).stdout
    return {n: show(n) for n in names}


def block(text, at):
    """what stands in the braces that open behind a position"""
    start = text.index('{', at)
    depth = 0
    for i in range(start, len(text)):
        depth += {'{': 1, '}': -1}.get(text[i], 0)
        if depth == 0:
            return text[start + 1:i]
    return text[start + 1:]


def functions(text):
    """each function: its name, its parameters as (name, type), its text"""
    heads = list(re.finditer(r'^[ \t]*(?:#\[.*\]\s*)*(?:pub )?(?:unsafe )?(?:extern "C" )?fn (\w+)(?:<[^(]*>)?\(', text, re.M))
    for h, following in itertools.zip_longest(heads, heads[1:]):
        body = text[h.start():following.start() if following else len(text)]
        depth, i = 0, h.end() - 1
        while True:
            depth += {'(': 1, ')': -1}.get(text[i], 0)
            if depth == 0:
                break
            i += 1
        params = re.findall(r'(\w+): ([^,]+(?:<[^>]*>)?)', text[h.end():i])
        yield h.group(1), [(n, t.strip()) for n, t in params], body


def enums(text):
    for m in re.finditer(r'^[ \t]*(?:pub )?enum (\w+)[^{]*', text, re.M):
        body = re.sub(r'//[^\n]*', '', block(text, m.start()))
        flat = re.sub(r'\{[^{}]*\}', '{}', body)
        yield m.group(1), [v.strip() for v in re.split(r',(?![^(]*\))', flat) if v.strip()]


def own_results(text):
    """enums with a refusal in one of their cases, or of two cases of which at least one holds a value"""
    for name, cases in enums(text):
        refusing = any(re.search(r'\(Refusal\)', c) for c in cases)
        two = len(cases) == 2 and any('(' in c or '{' in c for c in cases)
        if refusing or two:
            yield name


def flags(text):
    """structs with a bool beside other fields"""
    for m in re.finditer(r'^[ \t]*(?:pub )?struct (\w+)[^{;(]*\{', text, re.M):
        fields = re.findall(r'(\w+): ([^,]+),', block(text, m.start()))
        for f, t in fields:
            if t.strip() == 'bool' and len(fields) > 1:
                yield f'{m.group(1)}.{f}'


def counted_loops(text):
    """while loops that step a variable of their test by a constant"""
    for name, _, body in functions(text):
        for m in re.finditer(r'^[ \t]*while ([^{]*)\{', body, re.M):
            inner = block(body, m.start())
            tested = set(re.findall(r'\b[a-z_]\w*\b', m.group(1)))
            for v in sorted(tested):
                if re.search(rf'(?<![\w.]){v} [+-]= \d+;', inner):
                    yield f'{name}: while {m.group(1).strip()}'
                    break


def by_hand(text):
    """tests of a case that answer true or false, and conversions written as a match over literals"""
    for name, _, body in functions(text):
        if re.search(r'=> (true|false),\s*[^\n]*=> (true|false),', body):
            yield f'{name}: a match that answers true or false'
        if re.search(r'fn (same|equal|eq|cmp|compare|clone|copy)_?\w*\(', body):
            yield f'{name}: by its name'


def handed_on(text):
    """arms and let-elses that only hand a refusal or a nothing on, where `?` would"""
    for name, _, body in functions(text):
        n = len(re.findall(r'(\w+)::(\w+)\((\w+)\) => (?:\{\s*return )?(?:\w+::)?[A-Z]\w*\(\3\)', body))
        n += len(re.findall(r'\bErr\((\w+)\) => (?:\{\s*return )?Err\(\1\)', body))
        n += len(re.findall(r'else \{\s*return (?:\w+::\w+|None);\s*\}', body))
        if n:
            yield f'{name}: {n}'


def travelling(files):
    """groups of three parameters, by name and type, that stand in five functions of one crate or more"""
    seen = {}
    for n, text in files.items():
        crate = n.split('/')[1]
        for f, params, _ in functions(text):
            for g in itertools.combinations(sorted(set(params)), 3):
                seen.setdefault((crate, g), set()).add(f)
    best = {}
    for (crate, g), fs in seen.items():
        if len(fs) >= 5:
            key = (crate, tuple(sorted(fs)))
            best.setdefault(key, set()).update(x for x, _ in g)
    for (crate, fs), names in sorted(best.items()):
        yield f'{crate}: {", ".join(sorted(names))}: {len(fs)} functions'


def main():
    args = [a for a in sys.argv[1:] if a != '-v']
    files = sources(args[0] if args else None)
    kinds = [('1 own enums of the shape of Option or Result', own_results), ('1 arms and let-elses that hand on', handed_on), ('1 flags beside a value', flags),
             ('3 loops that count by hand', counted_loops), ('4 by hand', by_hand)]
    for title, find in kinds:
        places = [f'{n.split("/")[1]}: {p}' for n, text in sorted(files.items()) for p in find(text)]
        print(f'{title}: {len(places)}')
        if '-v' in sys.argv:
            print(*(f'    {p}' for p in places), sep='\n')
    groups = list(travelling(files))
    print(f'5 parameters that travel together: {len(groups)}')
    if '-v' in sys.argv:
        print(*(f'    {g}' for g in groups), sep='\n')


if __name__ == '__main__':
    main()

#!/usr/bin/env python3
"""Lists the places in crates/*/src that an older form may stand in, by the points of docs/DESIGN-PASS.md.

usage: tools/forms.py [COMMIT] [POINT]     (no commit: the work tree)
A place that it lists is one to look at, and not a fault."""
import collections, difflib, itertools, re, subprocess, sys

COMMIT = sys.argv[1] if len(sys.argv) > 1 and sys.argv[1] != '.' else None
POINT = sys.argv[2] if len(sys.argv) > 2 else None


def git(*words):
    return subprocess.run(['git', *words], capture_output=True, text=True, check=True).stdout


def sources():
    if COMMIT:
        names = git('ls-tree', '-r', '--name-only', COMMIT, 'crates').split()
    else:
        names = git('ls-files', '-co', '--exclude-standard', 'crates').split()
    for name in sorted(set(names)):
        if '/src/' in name and name.endswith('.rt'):
            try:
                yield name, git('show', f'{COMMIT}:{name}') if COMMIT else open(name).read()
            except FileNotFoundError:
                pass


FILES = dict(sources())
LINES = {
    '1': r'Result<[^;{]*, u8>|const [A-Z_]+: u8 =|[<( ]Option<u8>|Result<u8,|\((usize|u64), bool\)|(=> |return |Some\()0[;,)]$',
    '3': r'^\s*(while|loop)\b|^\s*for \w+ in .*\.\.|[+-]= 1;|= \w+\.saturating_add\(1\);',
    '4': r'^\s*(pub )?(pub\(crate\) )?fn (alike|same|equal|number|from_number|letter|from_letter|reason|is_sorted|too_large|required|put)\b'
         r'|^impl.* From<|^impl.* TryFrom<|const (NO_[A-Z]+|NONE|SCAN|MARK): [A-Z]|(Tally|Due|Counts|Covered) \{ ?\w+: 0|^\s*relations: 0,|Err\((?P<e>\w+)\) => (return )?Err\((?P=e)\)',
    '6': r'\b(starts|sums): (&mut )?Vec<|\b(depth|len|at|top|end|moved): usize|\bat: usize',
    '7': r'^\s*match (layers|way|name|words\.wanted)\b',
}


def functions(text):
    """Each function with its header and its body."""
    for m in re.finditer(r'^( *)(pub(?:\([a-z]+\))? )?(extern "C" )?fn (\w+)', text, re.M):
        end = re.compile(r'^' + m.group(1) + r'\}$|;\n', re.M).search(text, m.end())
        whole = text[m.start():end.end()] if end else ''
        body = re.search(r'^' + m.group(1) + r'\{$|\{\n', whole, re.M)
        if body:
            yield m.group(4), whole[:body.start()], whole[body.start():]


def shape(body):
    body = re.sub(r'//.*', '', body)
    return re.findall(r'[A-Za-z_]\w*|\d[\w]*|[^\s\w]+', body)


def twins():
    all_of = [(f, n, shape(b)) for f, t in FILES.items() for n, _, b in functions(t)]
    all_of = [(f, n, s) for f, n, s in all_of if len(s) >= 18]
    for (f, n, s), (g, m, t) in itertools.combinations(all_of, 2):
        if min(len(s), len(t)) * 4 < max(len(s), len(t)) * 3:
            continue
        matcher = difflib.SequenceMatcher(None, s, t, autojunk=False)
        if matcher.real_quick_ratio() > 0.8 and matcher.quick_ratio() > 0.8 and matcher.ratio() > 0.8:
            yield f'{f[7:]} {n} / {g[7:]} {m}'


def facts():
    """A `requires` that stands in three contracts of a crate or more, and parameters that three functions take together."""
    seen, groups = collections.Counter(), collections.defaultdict(set)
    for f, t in FILES.items():
        crate = f.split('/')[1]
        for n, head, _ in functions(t):
            for fact in set(re.findall(r'requires (?:\w+ )?\{ (.*?) \}$', head, re.M)):
                fact = re.sub(r'\b(S|C|E|self)\.(\w+\.)?meaning (\w+)\.now|\(?table space\.now\)?', 'MEANING', fact)
                seen[crate, fact] += 1
            names = re.findall(r'(\w+): &mut \[|(\w+): &\[', head)
            names = tuple(a or b for a, b in names)
            for size in (2, 3, 4):
                for group in itertools.combinations(names, size):
                    groups[crate, group].add(n)
    for (crate, fact), count in sorted(seen.items()):
        if count >= 3:
            yield f'{crate}: {count} times requires {fact}'
    for (crate, group), users in sorted(groups.items()):
        if len(users) >= 3 and not any(c == crate and set(group) < set(g) and users <= u for (c, g), u in groups.items()):
            yield f'{crate}: {", ".join(group)} in {len(users)} functions'


def proofs():
    tree = git('ls-tree', '-r', '--name-only', COMMIT, 'crates').split() if COMMIT else git('ls-files', '-co', '--exclude-standard', 'crates').split()
    counts = collections.Counter()
    for name in set(tree):
        if '/proofs/' in name and name.endswith('.antt'):
            try:
                text = git('show', f'{COMMIT}:{name}') if COMMIT else open(name).read()
            except FileNotFoundError:
                continue
            crate = name.split('/')[1]
            counts[crate, 'files'] += 1
            counts[crate, 'lines'] += text.count('\n')
            if name.endswith('Answers.antt'):
                counts[crate, 'answers'] += len(re.findall(r'^pub [\w-]+(?:\+[\w-]+)* : goal', text, re.M))
    for crate in sorted({c for c, _ in counts}):
        yield f"{crate}: {counts[crate, 'files']} files, {counts[crate, 'lines']} lines, {counts[crate, 'answers']} answers"


def main():
    for point in '12345678':
        if POINT and POINT != point:
            continue
        if point in LINES:
            found = [f'{f[7:]}:{i}: {line.strip()}' for f, t in FILES.items() for i, line in enumerate(t.split('\n'), 1) if re.search(LINES[point], line)]
        else:
            found = list({'2': twins, '5': facts, '8': proofs}[point]())
        print(f'point {point}: {len(found)}')
        for line in found:
            print('  ' + line)


main()

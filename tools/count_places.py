#!/usr/bin/env python3
"""Lists the places where code may be written plainer, by eight questions, as they stand at a commit (or, with none, in the work tree).

usage: tools/count_places.py [COMMIT] [NUMBER]      each line is a candidate; docs/DESIGN-PASS.md says which of them are places
"""
import collections
import itertools
import re
import subprocess
import sys

args = sys.argv[1:]
point = next((a for a in args if re.fullmatch('[1-8]', a)), None)
commit = next((a for a in args if not re.fullmatch('[1-8]', a)), None)


def git(*words):
    return subprocess.run(['git', *words], capture_output=True, text=True, check=True).stdout


def text_of(file):
    return git('show', f'{commit}:{file}') if commit else open(file).read()


files = (git('ls-tree', '-r', '--name-only', commit, 'crates') if commit else git('ls-files', 'crates')).split()
sources = {f: text_of(f) for f in files if '/src/' in f and f.endswith('.rt')}
proofs = [f for f in files if '/proofs/' in f and f.endswith('.antt')]


def lines(pattern, tests=False):
    for f, t in sources.items():
        for n, line in enumerate(t.split('\n'), 1):
            if not tests and '#[cfg(test)]' in line:
                break
            code = line.split('//')[0] if not line.strip().startswith('//') else ''
            if re.search(pattern, code) and 'ghost use' not in code:
                yield f'{f}:{n}: {line.strip()[:110]}'


def functions():
    for f, t in sources.items():
        t = re.sub(r'//.*', '', t.split('#[cfg(test)]')[0])
        for m in re.finditer(r'\bfn (\w+)(?:<[^(]*>)?\(([^{};]*?)\)\s*(?:->[^{;]*?)?(?=\s*(?:requires|ensures|\{|;))', t):
            params = [p.strip() for p in re.split(r',(?![^<\[(]*[>\])])', m.group(2)) if ':' in p]
            yield f.split('/')[1] + '::' + m.group(1), [re.sub(r"'\w+ ", '', p) for p in params]


def show(title, rows):
    rows = list(rows)
    print(f'{title}: {len(rows)}')
    for r in rows:
        print('   ', r)


def one():
    show('1 enums', lines(r'^\s*(pub(\([a-z]+\))? )?enum '))
    show('1 truth values beside something', lines(r': bool\b|-> bool\b|\bbool[>)]|= (true|false);'))
    show('1 numbers for kinds and refusals, and Option for a fault', lines(r'\b(number|layer|letter|sign): (u8|char)|\(u8, u8|-> Option<\w*Fault>|Sign\(char\)'))


def two():
    names = collections.defaultdict(collections.Counter)
    for f, t in sources.items():
        t = re.sub(r'//.*', '', t.split('#[cfg(test)]')[0])
        for m in re.finditer(r'\b(fn|struct|enum|const) ([A-Za-z_]+)', t):
            names[m.group(1) + ' ' + m.group(2)][f.split('/')[1]] += 1
    common = {'fn new', 'fn main', 'fn eq', 'fn from', 'fn fmt', 'fn drop', 'fn try_from', 'fn from_str'}
    show('2 names that are declared more than once', (
        f'{k}: ' + ', '.join(f'{c} {n}' for c, n in sorted(v.items())) for k, v in sorted(names.items()) if sum(v.values()) > 1 and k not in common))


def three():
    show('3 loops', lines(r'\bfor .* in |\bwhile |\bloop \{'))


def four():
    show('4 impls of equality, order, copying, conversion, printing', lines(
        r'^\s*impl(<.*>)? .*\b(PartialEq|Eq|PartialOrd|Ord|Clone|Copy|Display|From<|TryFrom<|FromStr|Default|Iterator|Hash).* for '))
    show('4 functions that convert or print', lines(r'\bfn (\w*_of|number|tell|text|word|letter|code|write_\w+|hex_digit|book_name|decimal)\b'))
    show('4 an Option or a Result taken apart only to make another', lines(r'\bErr\(_\) => |None => return|\blet (Some|Ok)\(.* else \{|\bOk\(\w+\) => Ok\('))


def five():
    pairs = collections.defaultdict(list)
    for name, params in functions():
        for pair in itertools.combinations(sorted(set(params)), 2):
            pairs[pair].append(name)
    show('5 pairs of parameters of three functions or more', (
        f'{len(v)}  {k[0]}, {k[1]}: ' + ' '.join(sorted(v)) for k, v in sorted(pairs.items(), key=lambda x: -len(x[1])) if len(v) > 2))
    facts = collections.defaultdict(list)
    for f, t in sources.items():
        t = re.sub(r'//.*', '', t)
        for m in re.finditer(r'(?:requires|ensures)(?: \w+)? \{(.*?)\}\s*(?=\n|$)', t, re.S):
            facts[' '.join(m.group(1).split())].append(f)
    show('5 clauses that stand three times or more', (f'{len(v)}  {k[:150]}' for k, v in facts.items() if len(v) > 2))


def six():
    show('6 buffers, arrays, vectors', lines(r'Vec<|\[[A-Z]\w*(<\w+>)?; |&mut \[u8\]|\[u8; '))


def seven():
    show('7 matches that choose a step, and callables', lines(r'match (task|order|word|question|command|ask|\*?self|&(mut )?self\.\w+) \{|\bfn\(|dyn |: Fn|impl Fn|FnOnce|FnMut'))


def eight():
    crates = collections.defaultdict(lambda: [0, 0, 0])
    for f in proofs:
        row = crates[f.split('/')[1]]
        t = text_of(f)
        row[0] += 1
        row[1] += t.count('\n')
        if f.endswith('Answers.antt'):
            row[2] += len(re.findall(r'^pub \S+ : goal\.', t, re.M))
    show('8 proofs: files, lines, answers', (f'{c}: {r[0]}, {r[1]}, {r[2]}' for c, r in sorted(crates.items())))
    print('    all:', ', '.join(str(sum(r[i] for r in crates.values())) for i in range(3)))


for n, say in enumerate([one, two, three, four, five, six, seven, eight], 1):
    if point is None or int(point) == n:
        say()

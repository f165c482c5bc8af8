"""Counts, in crates/*/src, the places that docs/DESIGN-PASS.md speaks of: python3 tools/places.py [POINT [ROOT]]"""
import collections
import glob
import os
import re
import sys

root = sys.argv[2] if len(sys.argv) > 2 else os.path.join(os.path.dirname(os.path.abspath(__file__)), '..')
FUNCTION = re.compile(r'^([ ]*)(?:pub(?:\([a-z]+\))? )?(?:const )?fn (\w+)(?:<[^(]*>)?\((.*?)\)(?: -> ([^\n{]*?))?\n?(.*?)(?=\{\n)(\{\n.*?^\1\})', re.S | re.M)
WORD = re.compile(r'\w+|[^\w\s]')


def sources():
    for name in sorted(glob.glob(os.path.join(root, 'crates/*/src/*.rt'))):
        text = re.sub(r'[ \t]*//[^\n]*', '', open(name, encoding='utf-8').read())
        yield name.split('crates/')[1].replace('/src/', '/')[:-3], text


def functions():
    for place, text in sources():
        for match in FUNCTION.finditer(text):
            yield place, match.group(2), match.group(3), match.group(5), match.group(6)


def enums():
    """1: enums with a case that has no value beside one that has; or of two cases without values."""
    for place, text in sources():
        for match in re.finditer(r'enum (\w+) \{(.*?)\n\}', text, re.S):
            cases = [c.strip() for c in re.split(r',\s*\n', re.sub(r'\{[^{}]*\}', '()', match.group(2))) if c.strip()]
            bare = [c for c in cases if '(' not in c]
            if bare and len(bare) < len(cases) or len(cases) == 2:
                yield f'{place} {match.group(1)}: {", ".join(cases)}'


def codes():
    """1: a number that says 'none' or which refusal it is: tested, kept in a field, or handed out."""
    for place, text in sources():
        for line in text.split('\n'):
            if re.search(r'\b(number|no|stop|full|own) [!=]= 0\b|pub (number|stop|full): (u8|usize)|return 1[06];|fn (\w+_fault|refusal\w*|unlike|undone|\w+_op|entry_number)\(.*-> (u8|usize)$|fn \w+_op\(n: u8\)', line):
                yield f'{place}: {line.strip()}'


def twins():
    """2: functions that are the same but for names, numbers and types, of twelve words or more."""
    same = collections.defaultdict(list)
    for place, name, parameters, _, body in functions():
        seen, words = {}, []
        for word in WORD.findall(body):
            if re.match(r'\d', word):
                word = '#'
            elif re.match(r'\w', word) and word not in ('if', 'else', 'match', 'let', 'mut', 'while', 'for', 'in', 'return', 'true', 'false', 'as'):
                word = seen.setdefault(word, f'v{len(seen)}')
            words.append(word)
        if len(words) >= 12:
            same[' '.join(words)].append(f'{place}.{name}')
    for names in same.values():
        if len(names) > 1:
            yield f'{len(names)}: {" ".join(names)}'


def loops():
    """3: loops that are no `for`."""
    for place, text in sources():
        for line in text.split('\n'):
            if re.match(r'\s*(while|loop)\b', line):
                yield f'{place}: {line.strip()}'


def by_hand():
    """4: conversions and comparisons by hand: casts, calls of std::num by path, fields copied one by one."""
    for place, text in sources():
        for line in text.split('\n'):
            for match in re.finditer(r'\bas (?:u8|u32|u64|usize|i32|i64)\b|std::num::\w+|let mut n = cp0;|fn (?:same\w*|wide|flag|link_bit|digit|character|signed\d+|pattern\d+)\b', line):
                yield f'{place}: {match.group(0)}: {line.strip()}'


def facts():
    """5: a fact that three or more contracts have."""
    count = collections.Counter()
    for _, _, _, clauses, _ in functions():
        found = set()
        for clause in re.findall(r'\{ (.*?) \}\n', clauses):
            for fact in re.split(r' × ', re.sub(r'[()]', '', clause)):
                if 'result ≡' not in fact and len(fact) > 5:
                    found.add(fact.strip())
        count.update(found)
    for fact, n in count.most_common():
        if n >= 3:
            yield f'{n}: {fact}'


def together():
    """5: three parameters that five or more functions have together."""
    count = collections.defaultdict(list)
    for place, name, parameters, _, _ in functions():
        names = re.findall(r'(\w+):', parameters)
        for i in range(len(names) - 2):
            count[tuple(names[i:i + 3])].append(f'{place}.{name}')
    for names, users in sorted(count.items(), key=lambda x: -len(x[1])):
        if len(users) >= 5:
            yield f'{len(users)}: {", ".join(names)}'


def buffers():
    """6: arrays that are filled up to a number kept beside them, and records laid out in arrays of numbers."""
    for place, text in sources():
        for line in text.split('\n'):
            if re.search(r'let mut \w+ = \[0\w*; \d+\]|buffer\(\)|ends: &|pages: &|\* 4 \+ \d\]', line):
                yield f'{place}: {line.strip()}'


def switches():
    """7: a value that says which step is to be run, matched in the step."""
    for place, text in sources():
        for line in text.split('\n'):
            if re.search(r'match (part|program|kind|which)\b', line):
                yield f'{place}: {line.strip()}'


def answers():
    """8: files with answers, the answers in them, and their lines."""
    files = goals = lines = 0
    for name in glob.glob(os.path.join(root, 'crates/*/proofs/**/Answers.antt'), recursive=True):
        text = open(name, encoding='utf-8').read()
        files, goals, lines = files + 1, goals + len(re.findall(r'^pub \S+ :', text, re.M)), lines + text.count('\n')
    yield f'{files} files, {goals} answers, {lines} lines'


points = [enums, codes, twins, loops, by_hand, facts, together, buffers, switches, answers]
for point in points:
    if len(sys.argv) < 2 or sys.argv[1] in ('all', point.__name__):
        places = list(point())
        print(f'{point.__name__}: {len(places)} ({point.__doc__})')
        if len(sys.argv) > 1 and sys.argv[1] != 'all':
            print('\n'.join(places))

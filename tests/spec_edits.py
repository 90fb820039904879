"""Small wrong edits of the definitions that contracts and theorems cite, for tests/mutate-specs.

The definitions are those of crates/*/specs that are to be believed: no law, no theory, no example. They are read as text:
brackets, applications and operators are told apart, and types as far as signatures show them, so that few edits are
refused for their form alone.
"""
import collections
import pathlib
import random
import re

ROOT = pathlib.Path(__file__).resolve().parent.parent
PROVED = {'Laws', 'Theory', 'Examples', 'Lib', 'Cases', 'Compute', 'Groups', 'Applied'}  # folders and files of no definitions

Node = collections.namedtuple('Node', 'start end text inner')  # inner: what stands between brackets, or a value and the field that is taken of it; None for a word
Clause = collections.namedtuple('Clause', 'pattern start end')  # the sides of an equation, or a field's name and type
Definition = collections.namedtuple('Definition', 'path name is_record is_type clauses known')
Edit = collections.namedtuple('Edit', 'name path definition kind line changes')  # changes: (start, end, new text)

# ---- the text of a definition, as a tree

WORD = re.compile(r'--[^\n]*|\[\]|\|\||[()\[\]{};|,]|[^\s()\[\]{};|,.]+\.(?=\s)|\.?[^\s()\[\]{};|,.]+')  # a field with its dot, a binder with its own
CLOSED_BY = {'(': ')', '[': ']', '{': '}'}
PRECEDENCE = {'^': 8, '*': 7, '/': 7, '%': 7, '+': 6, '-': 6, '+ℤ': 6, '-ℤ': 6, '∷': 5, '++': 5, '≤': 4, '<': 4, '≡': 4,
              '&&': 3, '||': 2, '×': 1, '→': 0}
BREAKS = {'=', '↦', '|', ';', ',', ':', 'λ', 'let', 'in'}


def tree(text, start, end):
    levels, opened = [[]], []
    for found in WORD.finditer(text, start, end):
        word = found.group()
        if word.startswith('--'):
            continue
        if word in CLOSED_BY:
            levels.append([])
            opened.append(found.start())
        elif opened and word == CLOSED_BY[text[opened[-1]]]:
            inner, begin = levels.pop(), opened.pop()
            levels[-1].append(Node(begin, found.end(), text[begin:found.end()], inner))
        elif word[0] == '.' and levels[-1] and levels[-1][-1].end == found.start():
            value, field = levels[-1].pop(), Node(found.start(), found.end(), word, None)
            levels[-1].append(Node(value.start, found.end(), text[value.start:found.end()], [value, field]))
        else:
            levels[-1].append(Node(found.start(), found.end(), word, None))
    return levels[0]


def levels_of(level):
    yield level
    for node in level:
        if node.inner is not None:
            yield from levels_of(node.inner)


def split(level):
    """Applications, as lists of their parts, and at the odd places the operators and other marks between them."""
    parts = [[]]
    for node in level:
        binder = node.inner is None and len(node.text) > 1 and node.text.endswith('.')  # of a λ
        if binder or node.text in PRECEDENCE or node.text in BREAKS:
            parts += [node, []]
        else:
            parts[-1].append(node)
    return parts


def operand(parts, i, step):
    """Where the operand of the operator at i stands, to its left or right, None where it has none."""
    first = last = i + step
    while 0 < last + step < len(parts) and PRECEDENCE.get(parts[last + step].text, -1) > PRECEDENCE[parts[i].text]:
        last += 2 * step
    first, last = sorted((first, last))
    return (parts[first][0].start, parts[last][-1].end) if parts[first] and parts[last] else None


def named(level, mark, end):
    """What stands as `name mark value`, with `end` between one and the next: fields of a record, cases of an `elim`."""
    chunks = [[]]
    for node in level:
        chunks += [[]] if node.text == end else []
        chunks[-1] += [node] if node.text != end else []
    for chunk in chunks:
        texts = [node.text for node in chunk]
        if mark in texts[:-1]:
            at = texts.index(mark)
            yield Clause(' '.join(texts[:at]), chunk[at + 1].start, chunk[-1].end)


# ---- the definitions, and what is known of types

def believed_files():
    return [p for p in sorted(ROOT.glob('crates/*/specs/**/*.antt')) if not PROVED & {p.stem, *p.relative_to(ROOT).parts}]


def types_of(signature):
    """The types in a signature, parameters first, as they are written."""
    types, depth = [''], 0
    for part in re.findall(r'[({]|[)}]|→|[^(){}→]+', signature):
        depth += (part in '({') - (part in ')}')
        if part == '→' and depth == 0:
            types.append('')
        else:
            types[-1] += part
    return [t.strip() for t in types if not t.strip().startswith('{')]


BELIEVED = set(believed_files())
SIGNATURE = re.compile(r'^(?:unfoldable |abbrev )?pub (\S+) : ([^\n]*)', re.M)
SIGNATURES = {'cond': ['Bool', 'A', 'A', 'A'], 'get_or': ['List', 'ℕ', 'ℕ', 'ℕ'], 'slice_index': ['List', 'ℕ', 'ℕ'],
              'set': ['List', 'ℕ', 'ℕ', 'List'], 'slice_set': ['List', 'ℕ', 'ℕ', 'List'],
              'leb': ['ℕ', 'ℕ', 'Bool'], 'ltb': ['ℕ', 'ℕ', 'Bool']}
MEMBERS = {}  # of each struct, enum and record by crate and name: its fields or variants, with their types
for file in sorted(ROOT.glob('crates/*/specs/**/*.antt')):
    for name, signature in SIGNATURE.findall(file.read_text()) if file in BELIEVED else ():
        SIGNATURES.setdefault(name, types_of(signature))
    for name, body in re.findall(r'^pub record (\w+) [^\n]*where\n((?:  [^\n]*\n)*)', file.read_text(), re.M):
        MEMBERS[file.parts[len(ROOT.parts) + 1], name] = dict(re.findall(r'^  pub (\S+) : (\S+)(?:  --.*)?$', body, re.M))
for file in ROOT.glob('crates/*/src/**/*.rt'):
    for name, body in re.findall(r'^pub (?:struct|enum) (\w+) \{(.*?)^\}', file.read_text(), re.M | re.S):
        body = re.sub(r'\b(u8|u16|u32|u64|usize)\b', 'ℕ', body)
        MEMBERS[file.parts[len(ROOT.parts) + 1], name] = dict(re.findall(r'^    (?:pub )?(\w+)(?:: )?([^,\n]*),', body, re.M))


def known_at(text, end):
    """What a file names before a place: groups of fields, variants and definitions, each with types."""
    declared = re.findall(r'Rattle\.(\w+)\.specs\.declared\.(\w+)', text[:end])
    declared += [(crate, name) for crate, name in MEMBERS if re.search(rf'^pub record {name} ', text, re.M)]
    groups = [MEMBERS[key] for key in sorted(set(declared)) if key in MEMBERS]
    names = re.findall(r'^use Rattle\.(?!std\.)[^{]*\.specs\.[A-Z]\w*\.\{([^}]*)\}', text, re.M)
    names = [n for line in names for n in line.split(', ')] + [n for n, _ in SIGNATURE.findall(text[:end])]
    return groups + [{n: SIGNATURES[n] for n in names if len(SIGNATURES.get(n, [])) > 1}]


def next_alike(word, groups):
    """The next name after the word, round in a ring, that has its type in the first group that holds the word."""
    for group in groups:
        if word in group:
            alike = [name for name in group if group[name] == group[word]]
            return alike[(alike.index(word) + 1) % len(alike)]
    return word


def definitions(path):
    text = path.read_text()
    for header in re.finditer(r'^(?:unfoldable |abbrev )?pub (record )?(\S+)([^\n]*)\n((?:[^\n]+\n)*)', text, re.M):
        name, body, is_record = header.group(2), header.group(4), bool(header.group(1))
        if is_record:
            found = re.finditer(r'^  pub (\S+) : ((?:(?!  --)[^\n])*)', body, re.M)
        else:
            found = re.finditer('^' + re.escape(name) + r'((?: [^=\n]*)?) =\s+((?:[^\n]|\n )*)', body, re.M)
        clauses = [Clause(f.group(1), header.start(4) + f.start(2), header.start(4) + f.end(2)) for f in found]
        is_type = is_record or header.group(3).endswith('Type 0')
        yield Definition(path, name, is_record, is_type, clauses, known_at(text, header.start()))


# ---- the edits

WORDS = {}  # each word with the one that takes its place, and the edit's kind
for one, other, kind in [
        ('≤', '<', 'comparison'), ('leb', 'ltb', 'comparison'), ('true', 'false', 'truth'), ('&&', '||', 'connective'),
        ('+', '-', 'sign'), ('+ℤ', '-ℤ', 'sign'), ('max', 'min', 'extreme')]:
    WORDS[one], WORDS[other] = (other, kind), (one, kind)
MORE_AT = {'≤': 1, '<': 0, 'leb': 1, 'ltb': 0}  # the side that is made greater by one: WORDS makes the other one so
NUMBER = re.compile(r'\d[\d_]*')


def imported(text, word):
    name = word if word[0].isalpha() else '◌' + word + '◌'
    line = re.search(r'^use Rattle\.std\.specs\.Prelude\.\{([^}]*)\}', text, re.M)
    if line is None:
        at = re.search(r'^use ', text, re.M).start()
        return [(at, at, f'use Rattle.std.specs.Prelude.{{{name}}}\n')]
    return [] if name in line.group(1).split(', ') else [(line.end(1), line.end(1), ', ' + name)]


def exchanged(text, kind, one, other):
    """Two pieces of text in each other's place."""
    if one and other and text[slice(*one)].strip() != text[slice(*other)].strip():
        yield kind, [(*one, text[slice(*other)]), (*other, text[slice(*one)])]


def one_more(text, place):
    old = text[slice(*place)] if place else '0'
    if not NUMBER.fullmatch(old):
        yield 'limit', [(*place, f'(suc ({old}))' if ' ' in old else f'(suc {old})')] + imported(text, 'suc')


def of_word(text, node, known):
    word, place = node.text, (node.start, node.end)
    if word in WORDS:
        new, kind = WORDS[word]
        yield kind, [(*place, new)] + imported(text, new)
    if NUMBER.fullmatch(word):
        yield from (('number', [(*place, str(value))]) for value in (int(word) + 1, int(word) - 1) if value >= 0)
    other = next_alike(word.lstrip('.'), known)
    if node.inner is None and other != word.lstrip('.'):
        if word[0] == '.':
            yield 'projection', [(*place, '.' + other)]
        elif word in SIGNATURES or re.search(r'TheVariants\.\{[^}]*\b' + other + r'\b[,}]', text):
            yield 'name', [(*place, other)]


def of_application(text, parts):
    head, arguments = parts[0].text, [(a.start, a.end) for a in parts[1:] if a.text[0] != '.']
    for i, (one, other) in enumerate(zip(arguments, arguments[1:])):
        types = SIGNATURES.get(head, [])[i:i + 2]
        if len(types) == 2 and types[0] == types[1]:
            yield from exchanged(text, 'arguments', one, other)
    if head == 'suc' and len(arguments) == 1:
        yield 'successor', [(parts[0].start, parts[-1].end, text[slice(*arguments[0])])]
    if head in MORE_AT and len(arguments) == 2:
        yield from one_more(text, arguments[MORE_AT[head]])
    if head == 'record':
        values = list(named(parts[1].inner, '=', ';'))
        types = next((group for group in MEMBERS.values() if set(group) == {v.pattern for v in values}), {})
        for one, other in zip(values, values[1:]):
            if types and types[one.pattern] == types[other.pattern]:
                yield from exchanged(text, 'fields', one[1:], other[1:])


def of_operator(text, parts, i, is_type):
    left, operator, right = operand(parts, i, -1), parts[i].text, operand(parts, i, 1)
    if operator in ('-', '/', '%', '^', '≤', '<'):
        yield from exchanged(text, 'arguments', left, right)
    if operator in MORE_AT:
        yield from one_more(text, (left, right)[MORE_AT[operator]])
    if operator in ('∷', '++'):
        inner = parts[i + 1][0].inner if len(parts[i + 1]) == 1 else None
        if inner and operator in [n.text for n in inner]:  # a ++ (b ++ c)
            right = operand(split(inner), 1, -1)
        if operator == '++' or [p.text for p in parts[i + 2:i + 3]] == ['∷']:  # no element with the rest of a list
            yield from exchanged(text, 'order', left, right)
    if is_type and operator in ('×', '→'):
        last = operator == '×' and (i + 2 >= len(parts) or parts[i + 2].text != '×')
        for place in (left, right) if last else (left,):
            if place and not re.fullmatch(r'\S+|\([^()]* : .*\)', text[slice(*place)]):  # no plain type, no binder
                yield 'dropped', [(*place, 'Unit {0}')]


def of_cases(text, clauses):
    """The results of neighbouring cases exchanged, or one in the other's place where its variables are not there."""
    variables = [set(re.findall(r'[^\s()]+', c.pattern)) for c in clauses]
    for i, (one, other) in enumerate(zip(clauses, clauses[1:])):
        words = [set(re.findall(r'[^\s(){};,]+', text[c.start:c.end])) & (variables[i] | variables[i + 1]) for c in (one, other)]
        forth, back = words[0] <= variables[i + 1], words[1] <= variables[i]
        for kind, changes in exchanged(text, 'cases', one[1:], other[1:]):
            if forth or back:
                yield kind, changes if forth and back else changes[forth:][:1]


def edits_of(definition):
    text, is_record, is_type, known = definition.path.read_text(), definition.is_record, definition.is_type, definition.known
    found = [] if is_record else list(of_cases(text, definition.clauses))
    for clause in definition.clauses:
        whole = tree(text, clause.start, clause.end)
        found += [('dropped', [(clause.start, clause.end, 'Unit {0}')])] if is_record and len(whole) > 1 else []
        for level in levels_of(whole):
            if level and text[level[0].start - 1:level[-1].end + 1] == '{0}':
                continue  # the universe of Unit {0}
            parts = split(level)
            results = [part for part, mark in zip(parts[::2], parts[1::2] + [None]) if part and (not mark or mark.text != '↦')]
            found += of_cases(text, list(named(level, '↦', '|')))
            found += [e for node in [*parts[1::2], *sum(results, [])] for e in of_word(text, node, known)]
            found += [e for part in results for e in of_application(text, part)]
            found += [e for i in range(1, len(parts), 2) if parts[i].text in PRECEDENCE for e in of_operator(text, parts, i, is_type)]
    file, counts = f'{definition.path.relative_to(ROOT).parts[1]}/{definition.path.stem}', collections.Counter()
    for kind, changes in found:
        counts[kind] += 1
        line = text.count('\n', 0, changes[0][0]) + 1
        yield Edit(f'{file}/{definition.name}/{kind}-{counts[kind]}', definition.path, definition.name, kind, line, changes)


def applied(text, changes):
    for start, end, new in sorted(changes, reverse=True):
        text = text[:start] + new + text[end:]
    return text


def described(edit):
    text = edit.path.read_text()
    changes = ', '.join(f'{text[start:end]} -> {new}' for start, end, new in edit.changes if start != end)
    return f'{edit.path.relative_to(ROOT)}:{edit.line}: {" ".join(changes.split())}'


def chosen(edits, seed, count):
    """So many of the edits: one of each definition before a second of any, of kinds that were chosen least so far."""
    rng, used, left, picked = random.Random(seed), collections.Counter(), collections.defaultdict(list), []
    for edit in edits:
        left[edit.path, edit.definition].append(edit)
    while any(left.values()) and len(picked) < count:
        for key in rng.sample(sorted(key for key in left if left[key]), sum(map(bool, left.values()))):
            edit = min(left[key], key=lambda e: (used[e.kind], rng.random()))
            left[key].remove(edit)
            used[edit.kind] += 1
            picked.append(edit)
    return picked[:count]

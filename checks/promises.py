"""What checks/total reads: the public functions of the sources, with their parameters and promises, and the statements of the certificate, each name of
which is followed through the imports of its file to the module that defines it. What cannot be read is an Unread, never passed over."""
import collections
import functools
import glob
import os
import re
import subprocess


# What stands before the name that a line of antt declares.
MARKS = r'^(?:(?:unfoldable|abbrev|pub|record|data) )*'


class Unread(Exception):
    pass


@functools.lru_cache(None)
def read(path):
    return open(path, encoding='utf-8').read()


# A source without its comments, a file of antt without its own. A comment within other marks might hide a line that is then still read: refused.
@functools.lru_cache(None)
def code(path):
    source = path.endswith('.rt')
    if ('/*' if source else '{-') in read(path):
        raise Unread(f'{path}: a comment in {"/* */" if source else "{- -}"} is not read')
    return re.sub(r'//.*' if source else r'(?m)(?:^|(?<=\s))--.*$', '', read(path))


# ---- imports

# The import lines of a file: whether names are passed on (`pub use`), the module, and what is taken from it or the name that it gets.
def imports(path):
    line = r'^ghost use ([^;]+);' if path.endswith('.rt') else r'^(?:unfoldable )?((?:pub )?use .+)$'
    for found in re.findall(line, code(path), re.M):
        passed, text = 'pub use' in found, ' '.join(re.sub(r'^(pub )?use ', '', found).split())
        form = re.fullmatch(r'([^\s{}]+?)(?:\.\{(.*)\}| as (\S+))?', text)
        if not form or form[1].endswith('*'):
            raise Unread(f'{path}: this import is not understood: {found}')
        yield passed, form[1], form[2], form[3]


# Of a file: each name that its imports bring with its full path, and each name of a module with the module's path.
@functools.lru_cache(None)
def imported(path, passed_on=False):
    names, modules = {}, {}
    for passed, module, group, alias in imports(path):
        if passed_on and not passed:
            continue
        if group is None:
            add(path, modules, alias or module.split('.')[-1], module)
        for part in filter(None, (part.strip() for part in (group or '').split(','))):
            name, _, other = part.partition(' as ')
            add(path, names, other or name, f'{module}.{name}')
    return names, modules


def add(path, table, name, target):
    if table.setdefault(name, target) != target:
        raise Unread(f'{path}: {name} is imported twice, from {table[name]} and from {target}')


# What a file of antt declares: definitions, records and data, and what stands indented below them (fields, constructors).
@functools.lru_cache(None)
def declared(path):
    return set(re.findall(r'^[ \t]*' + MARKS[1:] + r'([^\s(){};,:]+)(?: \{\w+\})?(?: [({][^\n]*)? : ', code(path), re.M))


# The module that defines a name, through each `pub use` that passes it on.
def origin(path):
    found = re.fullmatch(r'Rattle\.(\w+)\.(specs|proofs)\.(\S+)', path)
    if not found or found[3].startswith(('declared.', 'contracts.')):
        return path
    if not os.path.isdir(f'crates/{found[1]}'):
        return origin_in_kit(path, *found.groups())
    module, _, name = found[3].partition('.')
    file = f'crates/{found[1]}/{found[2]}/{module}.antt'
    if not os.path.exists(file):
        raise Unread(f'{path}: there is no {file}')
    passed = imported(file, True)[0]
    if name in passed:
        return origin(passed[name])
    if name not in declared(file):
        raise Unread(f'{path}: {file} does not declare it')
    return path


# The folder of the kit that has the sources of its libraries: beside the page that `rt doc` names.
@functools.lru_cache(None)
def kit():
    page = subprocess.run(['rt', 'doc'], capture_output=True, text=True, check=True).stdout.strip()
    return os.path.join(os.path.dirname(page), 'rattle')


# The same of a name of the kit's libraries, where modules stand in one another and are passed on as names are.
def origin_in_kit(path, crate, kind, rest):
    folder, parts = os.path.join(kit(), crate, kind), rest.split('.')
    file = os.path.join(folder, 'Lib.antt')
    if not os.path.exists(file):
        raise Unread(f'{path}: no crate here and no library of the kit')
    while parts:
        names, modules = imported(file, True)
        below = os.path.join(folder, parts[0])
        if os.path.exists(below + '.antt'):
            file, folder, parts = below + '.antt', below, parts[1:]
        elif parts[0] in modules or parts[0] in names:
            return origin('.'.join([modules.get(parts[0]) or names[parts[0]], *parts[1:]]))
        else:
            break
    return path


# ---- names in a statement

EQUAL = 'mathlib.Core.Path.◌≡◌'
SYNTAX = set('( ) { } ; , : = . → λ × ¬ ⊥ record let in Type _'.split())
# where an operator has its operands
HOLE = '◌'
# what a promise calls the result
RESULT = 'result'


def tokens(text):
    found = []
    for word in re.findall(r'[(){};,]|[^\s(){};,]+', text):
        ends = len(word) > 1 and word.endswith('.')
        found += [word[:-1], '.'] if ends else [word]
    return found


# The names that a file knows: its imports, what it declares itself, and of each operator its parts.
@functools.lru_cache(None)
def known(path):
    names, modules = imported(path)
    names = dict(names)
    if path.endswith('.antt'):
        crate, kind, file = re.fullmatch(r'crates/(\w+)/(\w+)/(\w+)\.antt', path).groups()
        for name in declared(path) & set(re.findall(MARKS + r'([^\s(){};,:]+) ', code(path), re.M)):
            add(path, names, name, f'Rattle.{crate}.{kind}.{file}.{name}')
    for name in [n for n in names if HOLE in n]:
        for part in [p for p in name.split(HOLE) if p]:
            names.setdefault(part, names[name])
    return names, modules


# One name as it is known everywhere, its projections each after a space; `bound` are the variables.
def resolved(path, name, bound):
    names, modules = known(path)
    head, dot, rest = name.partition('.')
    fields = f' .{rest}'.replace('.', ' .').replace('  ', ' ') if dot else ''
    if name in bound:
        return bound[name]
    if name in names:
        return origin(names[name])
    if name in SYNTAX or re.fullmatch(r'\d+', name):
        return name
    if not head:
        return fields.strip()
    if dot and head in bound:
        return bound[head] + fields
    if dot and head in modules:
        return origin(f'{modules[head]}.{rest}')
    if dot and re.match(r'(Rattle|mathlib|lib|Prim|denote)\.', name):
        return origin(name)
    if dot and head in names:
        return origin(names[head]) + fields
    raise Unread(f'{path}: {name} is neither imported nor declared nor a variable')


# The tokens of a statement with each name resolved.
def resolve(path, words, bound):
    return unbracketed(' '.join(meanings(path, words, bound)).split())


# What each token of a statement means. A variable that a λ or let binds is known to the end of its parentheses.
def meanings(path, words, bound):
    scopes, out = [dict(bound)], []
    for at, word in enumerate(words):
        if word in '({':
            scopes.append(dict(scopes[-1]))
        if word in ('λ', 'let'):
            scopes[-1] |= {name: '$' + name for name in binds(words, at)}
        label = words[at + 1:at + 2] == ['='] and words[at - 1] in '{;'
        out.append('.' + word if label else resolved(path, word, scopes[-1]))
        if word in ')}':
            scopes.pop()
    return out


# The names that the λ or let at this place binds: λ x y (z : A). ..; let x = .. in ..
def binds(words, at):
    if words[at] == 'let':
        return words[at + 1:at + 2]
    found, place = [], at + 1
    while words[place] != '.':
        if words[place] == '(':
            found += words[place + 1:words.index(':', place)]
            place = closing(words, place)
        else:
            found.append(words[place])
        place += 1
    return found


# No parentheses around one name, nor around the whole.
def unbracketed(words):
    words, before = list(words), None
    while words != before:
        before = list(words)
        for at in range(len(words) - 2):
            if words[at] == '(' and words[at + 2] == ')':
                words[at:at + 3] = [words[at + 1]]
                break
        if words[:1] == ['('] and closing(words, 0) == len(words) - 1:
            words = words[1:-1]
    return words


# Words as a text: no space inside parentheses.
def shown(words):
    return ' '.join(words).replace('( ', '(').replace(' )', ')')


# What a promise determines: the result, and buffers by their parameters' places.
def holes(promise):
    return [word for word in ['#r'] + sorted({w for w in promise if re.fullmatch(r"#\d+'", w)}) if word in promise]


# Where the parenthesis that opens at this place is closed.
def closing(words, at):
    depth = 0
    for place in range(at, len(words)):
        depth += (words[place] in '({') - (words[place] in ')}')
        if depth == 0:
            return place
    raise Unread('a parenthesis is not closed: ' + ' '.join(words[at:at + 9]))


# ---- sources: types

NUMBERS = {'u8': 256, 'u16': 65536, 'u32': 4294967296, 'usize': 18446744073709551616}
LIST, OPTION, RESULT_TYPE = 'mathlib.Core.List.List', 'Rattle.core.specs.declared.option.Option.Option', 'Rattle.core.specs.declared.result.Result.Result'
# the library's types that take types, by the names that every source knows, each with how many it takes
TAKING = {'Option': (OPTION, 1), 'Result': (RESULT_TYPE, 2)}
# what the tests of a type's own types are called, in their order, where its test is defined
TESTS = 'fgh'


def sources():
    return sorted(glob.glob('crates/*/src/**/*.rt', recursive=True))


# The crate of a source and its module, none for lib.rt. (There are no folders below src/.)
def place(path):
    found = re.fullmatch(r'crates/(\w+)/src/(\w+)\.rt', path)
    if not found:
        raise Unread(f'{path}: a source in a folder of its own is not read')
    return found[1], '' if found[2] == 'lib' else found[2]


# Each struct and enum by its path, as stamps::Pair: its source, what it is, what it takes, and its text.
@functools.lru_cache(None)
def types():
    found = {}
    for path in sources():
        for kind, name, taken, text in re.findall(r'\b(struct|enum)\s+(\w+)(?:<([^>]*)>)?\s*\{((?:[^{}]|\{[^{}]*\})*)\}', code(path)):
            found['::'.join(filter(None, (*place(path), name)))] = (path, kind, taken, text)
    return found


# The parts of a list, parted by the commas that stand in no parentheses of it.
def parted(text):
    parts, depth = [''], 0
    for mark in text:
        depth += (mark in '([{<') - (mark in ')]}>')
        parts = [*parts, ''] if mark == ',' and depth == 0 else [*parts[:-1], parts[-1] + mark]
    return [part.strip() for part in parts if part.strip()]


# The types that a type or a function takes, by their names; lifetimes say nothing here. What a type has to fulfil is not read.
def taken_types(path, text):
    found = [part for part in parted(text) if not re.fullmatch(r"'\w+", part)]
    for part in found:
        if not re.fullmatch(r'[A-Z]\w*', part) or part in {*TAKING, 'Self'}:
            raise Unread(f'{path}: what is taken as <{part}> is not read')
    return found


# What the `use` lines of a source bring: each name with its path.
@functools.lru_cache(None)
def used(path):
    found = {}
    for start, group, other in re.findall(r'^\s*(?:pub )?use ([\w:]+?)(?:::\{([^{}]*)\}| as (\w+))?;', code(path), re.M):
        for part in filter(None, (part.strip() for part in group.split(','))) if group else ['']:
            name, _, new = part.partition(' as ')
            full = f'{start}::{name}' if name else start
            found[new or other or full.split('::')[-1]] = full
    return found


# The path of a name in a source, through its `use` lines.
def full_path(path, name):
    crate, module = place(path)
    head, _, rest = name.partition('::')
    full = used(path).get(head, head if rest or head in ('self', 'super', 'crate') else '::'.join(filter(None, (crate, module, head))))
    full = '::'.join(filter(None, (full, rest)))
    return re.sub(r'^(super|crate)::', f'{crate}::', re.sub(r'^self::', '::'.join(filter(None, (crate, module, ''))), full))


# The path of a type's name in a source.
def type_path(path, name):
    full = full_path(path, name)
    if full not in types():
        raise Unread(f'{path}: the type {name} ({full}) is not read')
    return full


# The declared record or choice of a type: stamps::Pair is Rattle.stamps.specs.declared.Pair.Pair.
def declared_path(full):
    crate, *modules, name = full.split('::')
    return '.'.join([f'Rattle.{crate}.specs.declared', *modules, name, name])


# A variant of a choice, by the choice's name in the certificate.
def variant_of(declared, variant):
    return f'{declared.rsplit(".", 1)[0]}.TheVariants.{variant}'


# Of a type as a source spells it: how it is lent, and the type without lifetimes.
def bare(text):
    text = ' '.join(text.split())
    lent = re.match(r"&\s*('\w+ )?(mut )?", text)
    how = 'value' if not lent else 'held' if lent[1] else 'mut' if lent[2] else 'lent'
    return how, re.sub(r"<'\w+>", '', text[lent.end():] if lent else text)


# The length of an array: a number, or a constant of this source or of another crate, which is a number or such a constant.
def array_length(path, text):
    if text.isdigit():
        return text
    crate, *modules, name = full_path(path, text).split('::')
    file = f'crates/{crate}/src/{"/".join(modules) or "lib"}.rt'
    named = re.findall(rf'\bconst {name}: usize = ([^;]*);', code(file)) if os.path.exists(file) else []
    if len(named) != 1 or not re.fullmatch(r'[\w:]+', named[0]):
        raise Unread(f'{path}: the length {text} of an array is not read')
    return array_length(file, named[0])


# What a type is, without how it is lent: its form, what it is built on, and the types that it takes. `taken` are the names of types that stand for any.
def shape(path, kind, taken=()):
    array, listed = re.fullmatch(r'\[(.+); ([\w:]+)\]', kind), re.fullmatch(r'\[([^;]+)\]', kind)
    named = re.fullmatch(r'([\w:]+)(?:<(.+)>)?', kind)
    if kind in taken or kind in NUMBERS or kind == 'bool':
        return ('any' if kind in taken else 'bool' if kind == 'bool' else 'number'), kind, []
    if array:
        return 'array', array_length(path, array[2]), [shape(path, array[1], taken)]
    if listed:
        return 'slice', None, [shape(path, listed[1], taken)]
    if kind.startswith('(') and kind.endswith(')') and len(parted(kind[1:-1])) > 1:
        return 'tuple', None, [shape(path, part, taken) for part in parted(kind[1:-1])]
    if not named:
        raise Unread(f'{path}: the type {kind} is not read')
    given, own = parted(named[2] or ''), full_path(path, named[1])
    known = TAKING.get(named[1]) if named[1] not in used(path) and own not in types() else None
    full, many = known or (type_path(path, named[1]), len(taken_types(path, types()[own][2])) if own in types() else 0)
    if len(given) != many:
        raise Unread(f'{path}: the type {kind} takes {many} types')
    return (named[1] if known else 'own'), full, [shape(path, part, taken) for part in given]


# A type as the certificate spells it; `taken` says what is said for a type that stands for any.
def spelt(form, taken):
    def operand(part):
        words = spelt(part, taken)
        return words if len(words) == 1 else ['(', *words, ')']
    kind, on, parts = form
    if kind == 'any':
        return [taken[on]]
    if kind == 'tuple':
        return [word for part in parts for word in ('×', *(operand(part) if part[0] == 'tuple' else spelt(part, taken)))][1:]
    heads = {'number': 'Prim.Native.Nat.ℕ', 'bool': 'mathlib.Core.Bool.Bool', 'array': LIST, 'slice': LIST}
    head = heads.get(kind) or (declared_path(on) if kind == 'own' else on)
    return [head, *(word for part in parts for word in operand(part))]


# The test of Typed.antt that a type's values pass, as a function; none where every value passes. Of a type that stands for any, every value does: a program
# cannot look into it. `tests` are those of the types that the type itself takes, where its own test is defined.
def test_of(form, tests):
    def operand(part):
        found = test_of(part, tests) or 'anything'
        return f'({found})' if ' ' in found else found
    kind, on, parts = form
    if kind in ('bool', 'any'):
        return tests.get(on)
    if kind == 'number':
        return f'in_{on}'
    if kind == 'slice' and parts[0][:2] in (('number', 'u8'), ('number', 'u32')):
        return 'in_bytes' if parts[0][1] == 'u8' else 'in_u32s'
    if kind in ('array', 'slice'):
        return ' '.join(filter(None, (kind, on, operand(parts[0]))))
    if kind in TAKING:
        return f'in_{kind.lower()} {" ".join(map(operand, parts))}' if any(test_of(part, tests) for part in parts) else None
    if kind != 'own':
        raise Unread(f'no test is known of a {kind}')
    return ' '.join([f'in_{on.split("::")[-1]}', *map(operand, parts)]) if tests_of(on) else None


# The same of a type as a source spells it, applied; what is held for longer is as it is now.
def test(path, text, of, taken=(), tests={}):
    how, kind = bare(text)
    found = test_of(shape(path, kind, taken), tests)
    return found and f'{found} {of}' + ('.now' if how == 'held' else '')


# The fields of a struct with their types; of a choice each variant with its fields.
def members(full):
    path, kind, taken, text = types()[full]
    text = re.sub(r'#\[[^\]]*\]', '', text)
    return path, named_fields(path, text) if kind == 'struct' else [variant(path, part) for part in parted(text)]


def named_fields(path, text):
    found = [re.fullmatch(r'(?:pub(?:\([^)]*\))? )?(\w+)\s*:\s*(.+)', part, re.S) for part in parted(text)]
    if not all(found):
        raise Unread(f'{path}: these fields are not understood: {" ".join(text.split())}')
    return [(field[1], field[2]) for field in found]


# A variant with its fields, which have names or places; that it has a number says nothing of its values.
def variant(path, text):
    found = re.fullmatch(r'(\w+)\s*(?:\{(.*)\}|\((.*)\)|= \d+)?', text, re.S)
    if not found:
        raise Unread(f'{path}: this variant is not understood: {text}')
    return found[1], named_fields(path, found[2] or '') or [(f'x{at}', part) for at, part in enumerate(parted(found[3] or ''))]


# The lines that define a type's test, as they stand in Typed.antt, with each variant's full name; none where every value passes.
@functools.lru_cache(None)
def tests_of(full):
    path, listed = members(full)
    taken = taken_types(path, types()[full][2])
    tests = dict(zip(taken, TESTS[:len(taken)], strict=True))
    name = ' '.join(['in_' + full.split('::')[-1], *tests.values()])
    if types()[full][1] == 'struct':
        found = [test(path, t, f'x.{n}', taken, tests) for n, t in listed]
        return [f'{name} x = ' + ' && '.join(filter(None, found))] if any(found) else []
    lines = []
    for which, parts in listed:
        found = list(filter(None, (test(path, t, n, taken, tests) for n, t in parts)))
        of = ' '.join([variant_of(declared_path(full), which)] + [n for n, _ in parts])
        lines.append(f'{name} {f"({of})" if parts else of} = ' + (' && '.join(found) or 'true'))
    return lines if any(not line.endswith('= true') for line in lines) else []


# ---- sources: functions

class Function:
    # `names` is what the promises' variables mean, where they are not the parameters' names and `result`.
    def __init__(self, path, name, parameters, result, promises, taken=(), names=None):
        self.path, self.parameters, self.result, self.promises, self.names = path, parameters, result, promises, names
        self.key = f'{place(path)[0]}_{name}'
        # the trait that a type derives it by, if it is that
        self.derived = None
        # the types that it takes, each known by its place
        self.taken = {variable: f'%{at}' for at, variable in enumerate(taken)}

    # The type of a parameter or of the result, as the certificate's binders have it.
    def antt(self, text):
        how, kind = bare(text)
        words = spelt(shape(self.path, kind, self.taken), self.taken)
        return words if how != 'held' else ['denote.Ref.Bor', *(words if len(words) == 1 else ['(', *words, ')'])]

    # Each parameter as the certificate knows it: its place. First, the types that the function takes.
    def binders(self):
        return [(place, ['Type', '0']) for place in self.taken.values()] + [(f'#{at}', self.antt(kind)) for at, (name, kind) in enumerate(self.parameters)]

    # What the types say of the inputs, one premise for each parameter that could be out of range.
    def premises(self):
        found = [test(self.path, kind, f'#{at}', self.taken) for at, (name, kind) in enumerate(self.parameters)]
        return [premise for premise in found if premise]

    # What the variables of the promises mean, before it is known of which moment a parameter is spoken.
    def bound(self):
        return self.taken | (self.names or {name: f'@{at}' for at, (name, kind) in enumerate(self.parameters)} | {RESULT: '#r'})

    # How a promise speaks of a parameter, each form with what it means.
    def spellings(self, at):
        return [(f'#{at}', f'#{at}'), (f"#{at}'", f"#{at}'")] if self.names else spellings(at, self.parameters[at][1])

    # The promise of this label, resolved: #0 is the first parameter as it was, #0' what it holds afterwards, #r the result.
    def promised(self, label):
        text = ' '.join(resolve(self.path, tokens(self.promises[label]), self.bound()))
        for at in range(len(self.parameters)):
            for form, what in self.spellings(at):
                text = re.sub(rf'(?<!\S){form}(?!\S)', what, text)
        if '@' in text:
            raise Unread(f'{self.key}: a lent parameter is not spelt `x.now`, `x.old` or `x.new`: {text}')
        return unbracketed(text.split())


# How a promise speaks of a parameter: of a `&` as it is now, of a `&mut` as it was and as it is afterwards, of a value, or of what is held for longer, as it
# was passed (`x.entry` where it holds a reference).
def spellings(at, kind):
    how = bare(kind)[0]
    if how == 'mut':
        return [(rf'@{at} \.(?:old|entry \.now)', f'#{at}'), (rf'@{at} \.(?:new|exit \.now)', f"#{at}'")]
    return [(rf'@{at}(?: \.entry)? \.now' if how == 'lent' else rf'@{at}(?: \.entry)?(?! \.exit)', f'#{at}')]


def inside(text, at, close):
    depth = 0
    for place in range(at, len(text)):
        depth += (text[place] == text[at]) - (text[place] == close)
        if depth == 0:
            return text[at + 1:place], place + 1
    raise Unread('not closed: ' + text[at:at + 60])


# An impl of a source: where its block begins and ends, the types that it takes, the trait (none of a type's own functions), and the type.
Impl = collections.namedtuple('Impl', 'start end taken trait kind')


@functools.lru_cache(None)
def impls(path):
    text, found = code(path), []
    for word in re.finditer(r'\bimpl\b', text):
        # (The word in a type, as in `rule: impl FnOnce(..)`, begins no impl.)
        if re.search(r"([:<&,(>+=]|\bmut|'\w+)\s*$", text[:word.start()]):
            continue
        begin = text.index('{', word.end())
        told = text[word.end():begin]
        head = re.fullmatch(r'\s*(?:<([^<>]*)>)?\s*(?:([\w:]+(?:<.*>)?)\s+for\s+)?([\w:]+(?:<.*>)?)\s*', told, re.S)
        if not head or re.search(r'\bwhere\b', told):
            raise Unread(f'{path}: {" ".join(text[word.start():begin].split())}: an impl of this head is not read, and what it makes public neither')
        found.append(Impl(begin, inside(text, begin, '}')[1], head[1] or '', head[2], head[3]))
    return found


# The impl that a place is within, if any: a type's own function is as public as the type, in whatever module it stands.
def impl_at(path, at):
    return next((block for block in reversed(impls(path)) if block.start < at < block.end), None)


# The parameters of a function: each with its type; `self` has the type of the impl that it stands in.
def parameters(path, listed, own):
    found = []
    for part in parted(listed):
        self_ = re.fullmatch(r"(&(?:'\w+ )?(?:mut )?)?(?:mut )?self", part)
        pair = re.fullmatch(r'(?:mut )?(\w+)\s*:\s*(.+)', part, re.S)
        if self_ and own:
            found.append(('self', (self_[1] or '') + own))
        elif pair:
            found.append((pair[1], of_impl(pair[2], own)))
        else:
            raise Unread(f'{path}: this parameter is not understood: {part}')
    return found


# A type within an impl: `Self` is the impl's.
def of_impl(text, own):
    return re.sub(r'\bSelf\b', lambda _: own, text) if own and text else text


# What follows the parameters, up to the body: the result's type, each clause with its label and text, and where the body begins.
def clauses(path, name, text, at):
    result, found = re.match(r'\s*(?:->\s*([^{;]+?))?\s*(?=\b(?:ensures|requires)\b|[{;]|\b\w+\s*\{)', text[at:]), []
    if not result:
        raise Unread(f'{path}: the head of {name} is not understood')
    at += result.end()
    while True:
        clause = re.match(r'\s*(\w+)\s*(\w*)\s*(?=\{)', text[at:])
        if not clause:
            if not re.match(r'\s*[{;]', text[at:]):
                raise Unread(f'{path}: {name}: what follows its clauses is not understood: {" ".join(text[at:at + 40].split())}')
            return result[1], found, at + len(text[at:]) - len(text[at:].lstrip())
        body, at = inside(text, at + clause.end(), '}')
        found.append((clause[1], clause[2], ' '.join(body.split())))


# The head of a function, after whose name it starts: the types that it takes, its parameters, its result, its clauses, and where its body begins.
def head(path, name, start):
    text, block = code(path), impl_at(path, start)
    taken = re.match(r'\s*(?:<([^<>]*)>)?\s*(?=\()', text[start:])
    if not taken:
        raise Unread(f'{path}: the head of {name} is not understood')
    listed, at = inside(text, start + taken.end(), ')')
    result, found, body = clauses(path, name, text, at)
    own = block and block.kind
    every = taken_types(path, block.taken if block else '') + taken_types(path, taken[1] or '')
    return every, parameters(path, listed, own), of_impl(result, own), found, body


# The function of this name, after which start the parameters; of a trait's, its impl, or what a type derives.
def function(path, name, start, block=None):
    if block:
        return derived_function(path, block) if isinstance(block, Derived) else trait_function(path, name, start, block)
    taken, listed, result, found, _ = head(path, name, start)
    promises = {}
    for word, label, body in found:
        if word != 'ensures' or not body or re.search('[⌜⌝]', body):
            raise Unread(f'{path}: {name}: this clause is no promise: {word} {label} {{ {body} }}')
        if label in promises:
            raise Unread(f'{path}: {name}: two promises of one name')
        promises[label] = body
    if not promises:
        raise Unread(f'{path}: {name} promises nothing')
    return Function(path, name, listed, result, promises, taken)


# ---- sources: traits

# The traits of the library that are read, with what an impl of them says: its types, the ghost that is the promise, its other ghosts, and its function.
TRAITS = {
    'From': ((), 'from_gives', (), 'from'),
    'TryFrom': (('Error',), 'try_from_gives', (), 'try_from'),
    'Iterator': (('Item',), 'next_gives', ('remaining',), 'next'),
}


# Each trait that a source declares, by its path: whether it is public, which it is not where it is private or its crate's only.
@functools.lru_cache(None)
def own_traits():
    found = {}
    for path in sources():
        for public_, name in re.findall(r'(?:\b(pub(?:\s*\([^)]*\))?)\s+)?(?:unsafe\s+)?\btrait\s+(\w+)', code(path)):
            found['::'.join(filter(None, (*place(path), name)))] = public_ == 'pub'
    return found


# The trait of an impl: none where it is not public, and so makes nothing public; a name of TRAITS; another one is not read.
def public_trait(path, block):
    name = re.match(r'[\w:]+', block.trait)[0]
    full = full_path(path, name)
    if full in own_traits() and not own_traits()[full] and full.split('::')[0] == place(path)[0]:
        return None
    if name in TRAITS and name not in used(path) and full not in own_traits():
        return name
    raise Unread(f'{path}: impl {" ".join(block.trait.split())} for {block.kind}: what a trait makes public is not read')


# What stands in an impl of a trait: its types, its ghosts with their texts, and its functions with the places after their names.
def stated_in(path, block):
    text, at, found = code(path), block.start + 1, {'type': {}, 'ghost': {}, 'fn': {}}
    while at < block.end - 1:
        item = re.compile(r'\s*(?:(#)(?=\[)|(type) (\w+) = ([^;{}]+);|(ghost) (\w+)\s*=\s*(?=\{)|(fn) (\w+)|$)').match(text, at, block.end - 1)
        if not item:
            raise Unread(f'{path}: this is not understood in an impl of a trait: {" ".join(text[at:at + 60].split())}')
        at = item.end()
        if item[1]:
            at = inside(text, at, ']')[1]
        elif item[2]:
            found['type'][item[3]] = item[4]
        elif item[5]:
            found['ghost'][item[6]], at = inside(text, at, '}')
            at += re.match(r'\s*;|', text[at:]).end()
        elif item[7]:
            found['fn'][item[8]] = at
            at = inside(text, head(path, item[8], at)[-1], '}')[1]
    return found


# The functions that an impl of a trait of the library makes public: their names, with the places after them.
def trait_functions(path, block):
    trait = public_trait(path, block)
    if not trait:
        return []
    kinds, promise, others, name = TRAITS[trait]
    stated = stated_in(path, block)
    if promise not in stated['ghost']:
        raise Unread(f'{path}: impl {trait} for {block.kind} promises nothing: it has no ghost {promise}')
    if [*stated['fn']] != [name] or not {*stated['type']} <= {*kinds} or not {*stated['ghost']} <= {promise, *others}:
        raise Unread(f'{path}: impl {trait} for {block.kind}: something in it is not read')
    return [(path, name, stated['fn'][name], block)]


# A function of a trait. Its promise is the ghost `λ x r. ..` of the parameters and the result, or `λ s r t. ..` where `s` is what is lent, as it was, and `t`
# the same afterwards. It is known by its type too: rules_step_kind_try_from.
def trait_function(path, name, start, block):
    taken, listed, result, found, _ = head(path, name, start)
    text = stated_in(path, block)['ghost'][TRAITS[public_trait(path, block)][1]]
    words = tokens(text)
    names = words[1:words.index('.')] if words[:1] == ['λ'] and '.' in words else []
    ways = [bare(kind)[0] for _, kind in listed]
    meant = {'value': ['#0', '#r'], 'mut': ['#0', '#r', "#0'"]}.get(''.join(ways), [])
    if found or not names or len(names) != len(meant) or len({*names}) != len(names) or not all(re.fullmatch(r'\w+', word) for word in names):
        raise Unread(f'{path}: impl {block.trait} for {block.kind}: its promise is not understood: {" ".join(text.split())}')
    body = ' '.join(text.split('.', 1)[1].split())
    if not body or re.search('[⌜⌝]', body):
        raise Unread(f'{path}: impl {block.trait} for {block.kind}: this is no promise: {body}')
    return Function(path, f'{snake(bare(block.kind)[1])}_{name}', [(names[0], listed[0][1])], result, {'': body}, taken, dict(zip(names, meant)))


# The name of a type within the name of a function: step_kind of rules::StepKind.
def snake(kind):
    return re.sub(r'(?<!^)(?=[A-Z])', '_', kind.split('<')[0].split('::')[-1]).lower()


# ---- sources: what a type derives

# Of each trait that a public type may derive: its function, with the parameters and the result, and the promise, where `ghosts` is what the prover makes of the
# type's fields. (`ne` beside `eq`, `lt` and its like, `max`, `min` and `clamp` are the library's own, and go by these.)
GHOSTS = 'ghosts'
TWO = (('self', '&Self'), ('other', '&Self'))
DERIVED = {
    'PartialEq': ('eq', TWO, 'bool', 'result ≡ (ghosts).eq self.now other.now'),
    'PartialOrd': ('partial_cmp', TWO, 'Option<Ordering>', 'result ≡ (ghosts).partial_cmp self.now other.now'),
    'Ord': ('cmp', TWO, 'Ordering', 'result ≡ (ghosts).cmp self.now other.now'),
    'Default': ('default', (), 'Self', '(ghosts).is_default result'),
}
# Those of which the prover makes no function: laws of `eq`; and, where both are derived, a copy, by `clone` too, which is the value as it is.
SILENT = ({'Eq'}, {'Clone', 'Copy'})

# A public type that derives a trait of DERIVED.
Derived = collections.namedtuple('Derived', 'kind trait')


# What the types of a source derive: whether each is public, its name, and the traits.
def derives(path):
    text = code(path)
    found = re.findall(r'#\[derive\(([^()]*)\)\]\s*(?:(pub)\s+)?(?:pub\s*\([^)]*\)\s*)?(?:struct|enum)\s+(\w+)(<?)', text)
    if len(found) != len(re.findall(r'\bderiv', text)):
        raise Unread(f'{path}: what is derived here is not all understood')
    return [(public_ == 'pub', name, taken, {*parted(listed)}) for listed, public_, name, taken in found]


# The functions that the public types of a source derive, as `function` takes them.
def derived_functions(path):
    found = []
    for public_, name, taken, traits in derives(path):
        told = traits & {*DERIVED}
        silent = set().union(*(group for group in SILENT if group <= traits))
        unread = traits - silent if taken else traits - told - silent
        if public_ and unread:
            raise Unread(f'{path}: {name} derives {", ".join(sorted(unread))}: what that makes public is not read')
        found += [(path, DERIVED[trait][0], 0, Derived(name, trait)) for trait in DERIVED if public_ and trait in told]
    return found


# What a type derives, as a function of its own: rules_step_kind_eq.
def derived_function(path, block):
    name, listed, result, promise = DERIVED[block.trait]
    ghosts = '.'.join([f'Rattle.{place(path)[0]}.specs.contracts', *filter(None, [place(path)[1]]), block.kind + block.trait, 'TheImpl', GHOSTS])
    parameters_ = [(variable, of_impl(kind, block.kind)) for variable, kind in listed]
    found = Function(path, f'{snake(block.kind)}_{name}', parameters_, of_impl(result, block.kind), {'': promise.replace(GHOSTS, ghosts)})
    found.derived = block.trait
    return found


# The ghost that the promise of a derived function names, as two words of a statement: whose it is, and its field.
def ghost_of(f):
    words = f.promised('')
    at = next(at for at, word in enumerate(words) if word.endswith('.' + GHOSTS))
    return words[at:at + 2]


# ---- sources: what is public

# The static libraries of crates.txt, each with the crates that it stands on.
@functools.lru_cache(None)
def static_libraries():
    return {name: words.split() for name, words in re.findall(r'^(\w+) +staticlib *:([^#\n]*)', read('crates.txt'), re.M)}


# A module is public where it is the crate's own, or lib.rt says so.
def is_public(path):
    crate, module = place(path)
    lib = f'crates/{crate}/src/lib.rt'
    return not module or (os.path.exists(lib) and re.search(rf'^\s*pub mod {module}\b', code(lib), re.M) is not None)


# Where the public functions of a source start, for `function`; what could make another one public is not read, and so refused.
def public(path):
    text = code(path)
    for found in re.findall(r'\bpub use .*?;', text, re.S):
        raise Unread(f'{path}: {found} what it makes public is not read')
    for name in re.findall(r'\bpub\s+(?:\w+\s+)*trait\s+(\w+)', text):
        raise Unread(f'{path}: pub trait {name}: what a trait makes public is not read')
    if re.search(r'\bmacro_rules\b', text):
        raise Unread(f'{path}: macro_rules: what a macro makes public is not read')
    heads = re.finditer(r'(?:\bpub(?!\s*\()|\bextern\s+"\w+")\s+(?:(?:const|unsafe|async|extern|"\w+")\s+)*fn\s+(\w+)', text)
    own = [(path, found[1], found.end()) for found in heads if is_public(path) or impl_at(path, found.start())]
    return own + [made for block in impls(path) if block.trait for made in trait_functions(path, block)] + derived_functions(path)

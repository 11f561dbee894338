"""What `checks/total --write` writes of crates/certificate/proofs/Determined.antt: for each promise that has moved in its source, its line again, with the
names that this file has for what the source means (an import is added where it has none), and its proof where that is one of the three forms of words that
only repeat the promise. A line that is the promise already is not touched, and what was proved by hand stays; checks/total then says whether all agree."""
import re

import promises as p

# the proofs that repeat the promise, by the form of the statement
PROOFS = {'Determined': 'by_equation', 'DeterminedBy': 'by_meaning', 'DeterminedWith': 'by_lent'}
# what the result, and what a lent buffer holds afterwards, are called: the first of these that the function does not use
RESULT = ('r', 's', 'q')
AFTER = ('b', 'after', 'c')
# the module that passes on the library's names; it, and the modules beside it, have those that a module of CORE has
PRELUDE, BESIDE, CORE = 'Rattle.std.specs.Prelude', 'Rattle.std.specs.', 'Rattle.core.specs.'
WIDTH = 160


def put(path, text):
    """Writes a file; what was read of it before is forgotten."""
    with open(path, 'w', encoding='utf-8') as out:
        out.write(text)
    for known in (p.read, p.code, p.imported, p.declared, p.known):
        known.cache_clear()


# ---- imports

def means(path, name, bound):
    """What a name means in a file; none where it means nothing there."""
    try:
        return p.resolved(path, name, bound)
    except p.Unread:
        return None


def group_of(path, module):
    """The line that imports names from a module, as it stands in the file; none where there is no such line."""
    for line in re.findall(r'^use \S+\.\{.*\}$', p.read(path), re.M):
        if line.split()[1].split('.{')[0] == module:
            return line


def without(path, name):
    """Takes a name out of the imports, and the line where nothing is left in it."""
    text = p.read(path)
    for line in re.findall(r'^use .*\n', text, re.M):
        group = re.fullmatch(r'use (\S+)\.\{(.*)\}\n', line)
        names = [part for part in (group[2].split(', ') if group else []) if part.split(' as ')[-1] != name]
        if group and len(names) < len(group[2].split(', ')):
            put(path, text.replace(line, f'use {group[1]}.{{{", ".join(names)}}}\n' if names else ''))
        elif line.endswith(f' as {name}\n') and not group:
            put(path, text.replace(line, ''))


def imported_from(full):
    """The module that a name is imported from, and its name there: the library's Prelude, or a module beside that, where it passes the name on."""
    module, name = full.rsplit('.', 1)
    for passing in (PRELUDE, module.replace(CORE, BESIDE)):
        try:
            if p.origin(f'{passing}.{name}') == full:
                return passing, name
        except p.Unread:
            pass
    return module, name


def free(path, full, name, taken):
    """This name, where it means nothing else in the file."""
    if name in {*taken, *p.known(path)[1]}:
        raise p.Unread(f'{path}: {full} can be imported under no name that is free')
    return name


def brought(path, full, bound):
    """Imports what has this full name, and says how it is spelt now: alone, after its module's name where its own is taken, or, of what a type derives, by the
    type and the trait."""
    module, name = imported_from(full)
    if means(path, name, {}) is None:
        without(path, name)
    taken = {*p.known(path)[0], *bound}
    if name == p.GHOSTS:
        spelt = free(path, full, p.snake(module.split('.')[-2]), taken)
        line = f'use {module}.{{{name} as {spelt}}}'
    elif taken & {name, *filter(None, name.split(p.HOLE))} and p.HOLE not in name:
        other = module.removesuffix('.TheVariants').split('.')[-1].lower()
        line, spelt = f'use {module} as {free(path, full, other, taken)}', f'{other}.{name}'
    else:
        line, spelt = f'use {module}.{{{name}}}', name
    text, group = p.read(path), group_of(path, module)
    if group and spelt == name:
        put(path, text.replace(group, f'{group[:-1]}, {name}}}'))
    else:
        every = re.findall(r'^use .*\n', text, re.M)
        near = [found for found in every if found.split('.')[:2] == line.split('.')[:2]] or every
        put(path, text.replace(near[-1], f'{near[-1]}{line}\n'))
    return spelt


def spelt(path, word, full, bound):
    """How a file spells what has this full name: as the source does, after a module's name, or imported."""
    own = full.split('.')[-1] if word.startswith('Rattle.') else word.split('.')[-1]
    ways = [own] + [f'{module}.{own}' for module in sorted(p.known(path)[1])] + sorted(p.imported(path)[0])
    if not word.startswith('Rattle.'):
        ways.insert(0, word)
    found = next((way for way in ways if means(path, way, bound) == full), None)
    if found:
        return found
    new = brought(path, full, bound)
    return word if p.HOLE in new else new


# ---- a promise as the certificate has it

class Word:
    """A word of a promise: whether a space stands before it, and what it means."""

    def __init__(self, space, text, means):
        self.space, self.text, self.means = space, text, means


def words_of(f, label):
    """The words of a promise, as the source has them."""
    text = f.promises[label]
    plain = p.tokens(text)
    found, at = [], 0
    for word, meaning in zip(plain, p.meanings(f.path, plain, f.bound())):
        start = text.index(word, at)
        found.append(Word(start > at, word, meaning))
        at = start + len(word)
    return found


def renamed(word, spelt, text, meaning):
    """A word that begins with this form, and goes on with projections or ends there, begins with this text."""
    found = re.match(rf'{spelt}(?!\S)', word.means)
    if found:
        fields = word.means[found.end():].replace(' ', '')
        word.text, word.means = text + fields, meaning + word.means[found.end():]


def unbracketed(words):
    """No parentheses around one word."""
    at = 0
    while at + 2 < len(words):
        if words[at].text == '(' and words[at + 2].text == ')':
            words = [*words[:at], Word(words[at].space, words[at + 1].text, words[at + 1].means), *words[at + 3:]]
            at = max(at - 1, 0)
        else:
            at += 1
    return words


def certified(path, f, label, result, after):
    """The words of a promise as the certificate has them: a lent buffer's name is what it held before, `after` what it holds afterwards."""
    words = words_of(f, label)
    for word in words:
        renamed(word, '#r', result, '#r')
        for at, (name, kind) in enumerate(f.parameters):
            for spelling, meaning in f.spellings(at):
                renamed(word, spelling, after if meaning.endswith("'") else name, meaning.replace('#', '@'))
    bound = {word.text.split('.')[0]: word.means for word in words if word.means[0] in '@#$%'}
    for word in words:
        if word.means[0] not in '@#$%.' and word.text not in p.SYNTAX and not word.text.isdigit():
            full, *fields = word.means.split(' ')
            own = word.text[:len(word.text) - len(''.join(fields))]
            word.text = spelt(path, own, full, bound) + ''.join(fields)
    return unbracketed(words)


def joined(words):
    return ''.join(' ' * word.space + word.text for word in words).strip()


def type_of(path, f, kind, bound):
    """A type as this file spells it."""
    named = {place: name for name, place in f.taken.items()} | {word: word for word in p.SYNTAX}
    return p.shown([named[word] if word in named else spelt(path, word.rsplit('.', 1)[1], word, bound) for word in f.antt(kind)])


def binders(path, f, bound):
    """The types that it takes, and the parameters with their types, those of one type together."""
    groups = []
    for name, kind in f.parameters:
        spelt_type = type_of(path, f, kind, bound)
        if groups and groups[-1][1] == spelt_type:
            groups[-1][0].append(name)
        else:
            groups.append(([name], spelt_type))
    return ' '.join([f'{{{" ".join(f.taken)} : Type 0}}'] * bool(f.taken) + [f'({" ".join(names)} : {kind})' for names, kind in groups])


def variable(path, f, words, hole, name, bound):
    """A variable of the λ, with its type where the promise speaks of its fields: nothing else would tell the type."""
    fields = any(word.means.startswith(hole + ' .') for word in words)
    of = f.result if hole == '#r' else f.parameters[int(hole[1:-1])][1]
    return f'({name} : {type_of(path, f, of, bound)})' if fields else name


class Line:
    """What Determined has of a promise: the statement, and its proof where it only repeats the statement (else none)."""

    def __init__(self, path, name, f, label, meaning):
        parameters = [parameter for parameter, kind in f.parameters]
        result, after = (next(word for word in names if word not in parameters) for names in (RESULT, AFTER))
        bound = {word: word for word in (*f.taken, *parameters, result, after)}
        words = certified(path, f, label, result, after)
        holes = p.holes(f.promised(label))
        names = [(hole.replace('#', '@') if hole != '#r' else hole, result if hole == '#r' else after) for hole in holes]
        taken = ' '.join(variable(path, f, words, hole, given, bound) for hole, given in names)
        self.form = 'DeterminedBy' if meaning else 'DeterminedWith' if len(holes) == 2 else 'Determined'
        front = binders(path, f, bound)
        body = f'{self.form} {meaning + " " if meaning else ""}(λ {taken}. {joined(words)})'
        self.statement = wrapped(f'pub {name} : {front} →', body) if front else f'pub {name} : {body}'
        self.proof = self.repeats(f'{" ".join([name, *parameters])} =', words, meaning, [given for hole, given in names])

    def repeats(self, left, words, meaning, taken):
        """The proof that is the right side of the equation again, where the left is what that proof expects and the right has no variable of the λ."""
        equal = next((at for at, word in enumerate(words) if word.means == p.EQUAL), None)
        wanted = {'Determined': taken[0], 'DeterminedBy': f'{meaning} {taken[0]}', 'DeterminedWith': f'lent_of {" ".join(taken)}'}[self.form]
        if equal is None or joined(words[:equal]) != wanted or {word.text.split('.')[0] for word in words[equal + 1:]} & {*taken}:
            return None
        right = joined(words[equal + 1:])
        given = f'({right})' if ' ' in right and not is_bracketed(right) else right
        return wrapped(left, ' '.join(filter(None, (PROOFS[self.form], meaning, given))))


def is_bracketed(text):
    """Whether a text is in parentheses, with projections of that or none."""
    words = p.tokens(text)
    return words[0] == '(' and all(word.startswith('.') for word in words[p.closing(words, 0) + 1:])


def wrapped(left, right):
    """On one line, or where that is too long on two: a statement is parted before its last arrow."""
    if len(left) + 1 + len(right) <= WIDTH:
        return f'{left} {right}'
    return f'{left[:-2]}\n    → {right}' if left.endswith(' →') else f'{left}\n    {right}'


# ---- the file

def block(path, name):
    """A statement with its proof, up to an empty line, as it stands in the file."""
    found = re.search(rf'^pub {re.escape(name)} : .*\n(?:.+\n)*', p.read(path), re.M)
    return found[0] if found else None


def rewritten(path, name, line):
    """Writes the line of a promise that has moved; says what is left to do by hand."""
    old = block(path, name)
    proof = re.sub(r'^pub .*\n(?:[ \t].*\n)*', '', old)
    repeats = re.match(r'(?:.*[^=])?=\s+(?:%s)\b' % '|'.join(PROOFS.values()), proof)
    if line.proof and repeats:
        proof = line.proof + '\n'
    put(path, p.read(path).replace(old, f'{line.statement}\n{proof}'))
    if not (line.proof and repeats):
        yield f'{name}: its statement is written; its proof is as it was, for a hand to look at'


def added(path, name, f, line, before):
    """Writes the line of a new promise: after the promise before it, else before the first of its crate, or else at the end."""
    if not line.proof:
        yield f'{name}: not written, since its proof does not only repeat the promise\n  {line.statement}'
        return
    crate, text, new = p.place(f.path)[0], p.read(path), f'{line.statement}\n{line.proof}\n'
    first = re.search(rf'^pub {crate}_', text, re.M)
    if before and before.startswith(crate + '_'):
        put(path, text.replace(block(path, before), f'{block(path, before)}\n{new}'))
    elif first:
        put(path, f'{text[:first.start()]}{new}\n{text[first.start():]}')
    else:
        put(path, f'{text}\n-- ---- {crate}\n\n{new}')


def removed(path, name):
    """Takes out the line of a promise that is gone."""
    old = block(path, name)
    put(path, p.read(path).replace(f'{old}\n' if f'{old}\n' in p.read(path) else f'\n{old}', ''))


def used(path):
    """The words of a file besides its imports and its comments."""
    return {part for word in p.tokens(re.sub(r'^use .*$', '', p.code(path), flags=re.M)) for part in (word, word.split('.')[0])}


def imported_names(path):
    """What the imports of a file bring: names, and modules by theirs."""
    return [*p.imported(path)[0], *p.imported(path)[1]]


def mended(path, name, f, label, meanings, last):
    """Writes the line of a promise that is new or has moved, where `last` is the promise before it."""
    line = Line(path, name, f, label, meanings.get(f.key))
    yield from rewritten(path, name, line) if block(path, name) else added(path, name, f, line, last)


def mend(path, promised, meanings, stale):
    """Makes the lines of Determined those of the promises: `stale` are the names whose lines are not. Says what is left to do by hand."""
    if not stale:
        return
    before, there, last = used(path), imported_names(path), None
    for name in promised:
        try:
            yield from mended(path, name, *promised[name], meanings, last) if name in stale else ()
        except p.Unread as error:
            yield f'{name}: not written: {error}'
        last = name if block(path, name) else last
    for name in sorted({*stale} - {*promised}):
        removed(path, name)
    for name in imported_names(path):
        words = {part for part in name.split(p.HOLE) if part} if p.HOLE in name else {name}
        if (words & before or name not in there) and not words & used(path):
            without(path, name)

"""Rattle's source files, as far as a mutation needs them: tokens, functions, constants, structs, enums, and the types of locals."""
import os
import re
from collections import namedtuple

from repository import files_below, read

TOKEN = re.compile(r'''
    (?P<comment>//[^\n]*)
  | (?P<str>b"(?:[^"\\]|\\.)*")
  | (?P<byte>b'(?:[^'\\]|\\.)')
  | (?P<life>'[a-z_]+)
  | (?P<num>0x[0-9a-fA-F_]+|\d[\d_]*(?:u8|u16|u32|u64|usize|i32|i64)?)
  | (?P<id>[A-Za-z_][A-Za-z0-9_]*)
  | (?P<op>::|->|=>|==|!=|<=|>=|<<|>>|&&|\|\||\+=|-=|\*=|\.\.=|\.\.|[-+*/%&|^!<>=(){}\[\],;:.#?])
  | (?P<space>\s+)
  | (?P<any>.)
''', re.X)

COMPARISONS = ('==', '!=', '<', '<=', '>', '>=')
NUMBER_TYPE = re.compile(r'(u8|u16|u32|u64|usize)$')

Token = namedtuple('Token', 'kind text start end')
# the parameters are (name, type); the body's braces are the tokens `first` and `last`; `type` is that of its `impl`, or ''; functions of one
# cycle have one proof
Function = namedtuple('Function', 'name line params result first last type cycle')
# the tokens of the value are `first` up to `last`
Constant = namedtuple('Constant', 'name type first last')
# a parameter or local, and the token from which on it can be used
Local = namedtuple('Local', 'name type since')


# ---- tokens

def opens(token):
    return token.kind == 'op' and token.text in '([{'


def closes(token):
    return token.kind == 'op' and token.text in ')]}'


def close_of(tokens, i):
    """The place of the bracket that closes the one at i."""
    depth = 0
    for k in range(i, len(tokens)):
        depth += opens(tokens[k]) - closes(tokens[k])
        if depth == 0:
            return k
    raise ValueError('a bracket that nothing closes')


def open_of(tokens, i):
    """The place of the bracket that opens what encloses place i, or what the bracket at i closes."""
    depth = 0 if closes(tokens[i]) else 1
    while True:
        depth += closes(tokens[i]) - opens(tokens[i])
        if depth == 0:
            return i
        i -= 1


def end_of_statement(tokens, i, last):
    """The place of the semicolon that ends the statement at i, None where a bracket closes before it, or `last` comes."""
    depth = 0
    for k in range(i, last):
        depth += opens(tokens[k]) - closes(tokens[k])
        if depth < 0:
            return None
        if depth == 0 and tokens[k].text == ';':
            return k
    return None


def place_of(tokens, text, i):
    """The first place from i on that has the text."""
    while tokens[i].text != text:
        i += 1
    return i


def after_angles(tokens, i):
    """The place after the angle brackets that open at i."""
    depth = 0
    while True:
        depth += {'<': 1, '>': -1, '<<': 2, '>>': -2}.get(tokens[i].text, 0)
        i += 1
        if depth == 0:
            return i


def split_at_commas(tokens, first, last):
    """The parts (first, last) between the commas that no inner bracket has."""
    parts, depth, at = [], 0, first
    for k in range(first, last):
        depth += opens(tokens[k]) - closes(tokens[k])
        if depth == 0 and tokens[k].text == ',' and tokens[k].kind == 'op':
            parts.append((at, k))
            at = k + 1
    parts.append((at, last))
    return [part for part in parts if part[0] < part[1]]


def type_text(words):
    """A type as one text, without lifetimes and modules."""
    text = re.sub(r"'[a-z_]+", '', ''.join(words).rstrip(',')).replace('&mut', '&mut ')
    return re.sub(r'[a-z_]+::', '', text)


def without_clauses(text):
    """The text with blanks in place of comments, ghost items, `requires` and `ensures`."""
    out = list(text)

    def blank(first, last):
        for k in range(first, last):
            if out[k] != '\n':
                out[k] = ' '

    for found in re.finditer(r'//[^\n]*', text):
        line = text.rfind('\n', 0, found.start()) + 1
        if text.count('"', line, found.start()) % 2 == 0:
            blank(*found.span())
    for found in re.finditer(r'^\s*ghost use [^;]*;', text, re.M):
        blank(*found.span())
    for found in re.finditer(r'^\s*(?:requires|ensures|ghost)\b\*?[^\n{};]*\{', text, re.M):
        depth, k = 1, found.end()
        while depth:
            depth += (text[k] == '{') - (text[k] == '}')
            k += 1
        blank(found.start(), k)
    return ''.join(out)


# ---- files

class Source:
    """One file: its functions, constants, structs and enums."""

    def __init__(self, crate, rel, text):
        self.crate, self.rel, self.text = crate, rel, text
        found = [Token(m.lastgroup, m.group(), m.start(), m.end()) for m in TOKEN.finditer(without_clauses(text))]
        end = Token('end', '', len(text), len(text))
        self.tokens = [token for token in found if token.kind not in ('comment', 'space')] + [end, end]  # so that one may look ahead
        self.functions, self.constants, self.structs, self.enums, self.impls = [], [], {}, {}, []
        readers = {'fn': self.function, 'const': self.constant, 'struct': self.struct, 'enum': self.enum, 'impl': self.impl}
        i = 0
        while i < len(self.tokens):
            reader = readers.get(self.tokens[i].text)
            i = reader(i) if reader else i + 1

    def words(self, first, last):
        return [token.text for token in self.tokens[first:last]]

    def impl(self, i):
        """The type of an `impl` with the tokens of its braces."""
        body = place_of(self.tokens, '{', i)
        words = self.words(i + 1, body)
        words = words[words.index('for') + 1:] if 'for' in words else words
        self.impls.append((next(word for word in words if word[0].isalpha()), body, close_of(self.tokens, body)))
        return body + 1

    def cycle_before(self, i):
        """The cycle that the attributes of the function at i name, or ''."""
        first = i
        while first and self.tokens[first - 1].text not in ('{', '}', ';'):
            first -= 1
        words = self.words(first, i)
        return words[words.index('cycle') + 2] if 'cycle' in words else ''

    def path(self, *names):
        """The prover's name of something in this file."""
        modules = [part for part in self.rel[len('src/'):-len('.rt')].split('/') if part not in ('lib', 'main', 'mod')]
        return '::'.join([self.crate] + modules + list(names))

    def uses(self, name):
        """The functions of this file whose code names something."""
        return [f for f in self.functions if name in self.words(f.first, f.last)]

    def function(self, i):
        tokens = self.tokens
        at = i + 2
        if tokens[at].text == '<':
            at = after_angles(tokens, at)
        close = close_of(tokens, at)
        params = []
        for part in split_at_commas(tokens, at + 1, close):
            words = self.words(*part)
            colon = words.index(':') if ':' in words else None
            params.append((words[colon - 1], type_text(words[colon + 1:])) if colon else ('self', 'Self'))
        at, result = close + 1, '()'
        if tokens[at].text == '->':
            body = place_of(tokens, '{', at)
            at, result = body, type_text(self.words(at + 1, body))
        if tokens[at].text == '{':
            line = self.text.count('\n', 0, tokens[i].start) + 1
            type_ = next((type_ for type_, first, last in self.impls if first < i < last), '')
            self.functions.append(Function(tokens[i + 1].text, line, params, result, at, close_of(tokens, at), type_, self.cycle_before(i)))
        return at

    def constant(self, i):
        equals = place_of(self.tokens, '=', i)
        end = end_of_statement(self.tokens, equals, len(self.tokens))
        self.constants.append(Constant(self.tokens[i + 1].text, type_text(self.words(i + 3, equals)), equals + 1, end))
        return end

    def struct(self, i):
        tokens, at = self.tokens, i + 2
        while tokens[at].text not in ('{', '('):
            at += 1
        close = close_of(tokens, at)
        fields = []
        for number, part in enumerate(split_at_commas(tokens, at + 1, close)):
            words = [word for word in self.words(*part) if word != 'pub']
            fields.append((words[0], type_text(words[2:])) if ':' in words else (str(number), type_text(words)))
        self.structs[tokens[i + 1].text] = fields
        return close

    def enum(self, i):
        close = close_of(self.tokens, i + 2)
        parts = split_at_commas(self.tokens, i + 3, close)
        self.enums[self.tokens[i + 1].text] = [(self.tokens[a].text, type_text(self.words(a + 1, b))) for a, b in parts]
        return close


class World:
    """What all crates declare."""

    def __init__(self, repository):
        self.sources, self.functions, self.structs, self.enums, self.constants = {}, {}, {}, {}, {}
        for crate in repository.needs:
            folder = repository.folder(crate)
            for path in files_below(os.path.join(folder, 'src'), '.rt'):
                self.add(Source(crate, os.path.relpath(path, folder), read(path)))

    def add(self, source):
        self.sources.setdefault(source.crate, []).append(source)
        for function in source.functions:
            self.functions.setdefault(function.name, []).append((source, function))
        self.structs.update(source.structs)
        for name, arms in source.enums.items():
            self.enums.setdefault(name, arms)
        for constant in source.constants:
            value = ''.join(source.words(constant.first, constant.last)).replace('_', '')
            self.constants.setdefault(constant.name, {}).setdefault(source.crate, (constant.type, value))

    def path(self, source, function):
        """The prover's name of a function: a method is named by the module of its type."""
        if not function.type:
            return source.path(function.name)
        homes = [other for other in self.sources[source.crate] if function.type in other.structs or function.type in other.enums]
        return (homes or [source])[0].path(function.type, function.name)

    def users(self, crate, name):
        """The prover's names of a crate's functions whose code names a constant, or another that is made of it."""
        names = {name}
        for _ in range(3):
            names |= {c.name for source in self.sources[crate] for c in source.constants if names & set(source.words(c.first, c.last))}
        return sorted({self.path(source, f) for source in self.sources[crate] for used in names for f in source.uses(used)})

    def constant(self, crate, name):
        """(type, number) of a constant, the crate's own or the only one of the name; None for none, the number None where it is computed."""
        known = self.constants.get(name, {})
        found = known.get(crate) or (next(iter(known.values())) if len(set(known.values())) == 1 else None)
        if not found:
            return None
        try:
            return found[0], int(found[1], 0)
        except ValueError:
            return found[0], None

    def result(self, name, count=None):
        """What the functions of a name, with so many parameters, answer, if it is one type."""
        found = {f.result for _, f in self.functions.get(name, []) if count is None or len(f.params) == count}
        return found.pop() if len(found) == 1 else '?'


# ---- types, as far as a mutation needs them; '?' for one that isn't found out

class Locals:
    """The parameters and locals of a function with their types."""

    def __init__(self, world, source, function):
        self.world, self.source, self.tokens = world, source, source.tokens
        self.known = [Local(name, type_, function.first) for name, type_ in function.params if name != 'self']
        for i in range(function.first, function.last):
            if self.tokens[i].text == 'let':
                self.bound_by_let(i, function.last)
            elif self.tokens[i].text == '=>' and closes(self.tokens[i - 1]):
                self.bound_by_pattern(i)

    def at(self, i):
        """{name: type} at a place."""
        return {local.name: local.type for local in self.known if local.since <= i}

    def bound_by_let(self, i, last):
        name = i + 2 if self.tokens[i + 1].text == 'mut' else i + 1
        end = end_of_statement(self.tokens, name, last)
        if self.tokens[name + 1].text == ':':
            equals = place_of(self.tokens, '=', name)
            type_ = type_text(self.source.words(name + 2, equals))
        elif self.tokens[name + 1].text == '=':
            type_ = self.type_of(name + 2, end)
        else:
            return
        self.known.append(Local(self.tokens[name].text, type_, end))

    def bound_by_pattern(self, i):
        """What a match arm before the arrow at i binds, by the enum's declaration."""
        tokens, opening = self.tokens, open_of(self.tokens, i - 1)
        if tokens[opening - 2].text != '::':
            return
        arms = dict(self.world.enums.get(tokens[opening - 3].text, []))
        types = re.findall(r'[A-Za-z0-9:]+', arms.get(tokens[opening - 1].text, ''))
        for type_, (a, b) in zip(types, split_at_commas(tokens, opening + 1, i - 1)):
            if b - a == 1 and tokens[a].kind == 'id':
                self.known.append(Local(tokens[a].text, type_.split(':')[-1], i))

    def type_of(self, a, b):
        """The type of the expression of the tokens a up to b."""
        tokens = self.tokens
        if a >= b:
            return '?'
        first = tokens[a]
        if b - a >= 2 and tokens[b - 2].text == 'as':
            return tokens[b - 1].text
        if first.kind == 'num':
            suffix = NUMBER_TYPE.search(first.text)
            names = [k for k in range(a + 1, b) if tokens[k].kind == 'id']
            return suffix.group() if suffix else self.type_of(names[0], b) if names else '?'
        if first.text == '(':
            return self.type_of(a + 1, close_of(tokens, a))
        if first.text in ('!', 'true', 'false'):
            return 'bool'
        if first.text == '[':
            return self.type_of_array(self.source.words(a + 1, close_of(tokens, a)))
        return self.type_of_path(a, b) if first.kind == 'id' else '?'

    def type_of_array(self, words):
        if ';' not in words:
            return '?'
        element, size = words[0], words[words.index(';') + 1:]
        suffix = NUMBER_TYPE.search(element)
        number = size[-1]
        if len(size) == 1 and not number.isdigit():
            constant = self.world.constant(self.source.crate, number)
            number = str(constant[1]) if constant else number
        return '[%s;%s]' % (suffix.group() if suffix else element, number)

    def type_of_path(self, a, b):
        tokens, world, at = self.tokens, self.world, a
        while at + 2 < b and tokens[at + 1].text == '::':
            at += 2
        name = tokens[at].text
        enum = tokens[at - 2].text if at > a and tokens[at - 2].text in world.enums else None
        following = tokens[at + 1].text if at + 1 < b else ''
        if following == '(':
            close = close_of(tokens, at + 1)
            count = len(split_at_commas(tokens, at + 2, close))
            return self.type_along(name if name in world.structs else world.result(name, count), close + 1, b)
        if following == '{' and (name in world.structs or at > a):
            return enum or name
        if enum:
            return enum
        known = [local.type for local in self.known if local.name == name and local.since <= a]
        constant = world.constant(self.source.crate, name)
        return self.type_along(known[-1] if known else constant[0] if constant else '?', at + 1, b)

    def type_along(self, type_, at, b):
        """The type after the fields, calls and indices from `at` on."""
        tokens = self.tokens
        while at < b:
            if tokens[at].text == '.':
                name = tokens[at + 1].text
                if at + 2 < b and tokens[at + 2].text == '(':
                    if name == 'len':
                        return 'usize'
                    type_, at = self.world.result(name), close_of(tokens, at + 2) + 1
                    continue
                type_, at = self.type_of_field(type_, name), at + 2
            elif tokens[at].text == '[':
                close = close_of(tokens, at)
                if '..' not in self.source.words(at, close):
                    element = re.match(r'&?(?:mut )?\[([A-Za-z0-9]+)', type_)
                    type_ = element.group(1) if element else '?'
                at = close + 1
            else:
                return 'bool' if tokens[at].text in COMPARISONS + ('&&', '||') else type_
        return type_

    def type_of_field(self, type_, name):
        structs = self.world.structs
        fields = dict(structs.get(type_, []))
        if name in fields:
            return fields[name]
        found = {dict(fields)[name] for fields in structs.values() if name in dict(fields)}
        return found.pop() if len(found) == 1 else '?'

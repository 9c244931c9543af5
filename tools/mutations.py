"""Small changes of the code, each at one place of one file, outside comments, `ghost use`, `requires` and `ensures`."""
import re
from collections import namedtuple

from source import COMPARISONS, Locals, close_of, end_of_statement, open_of, opens, split_at_commas

# the text from `start` to `end` of the file becomes `new`; `who` is the function with its line, or the constant
Mutation = namedtuple('Mutation', 'start end new kind who')

KEYWORDS = set('if else while match return let mut as fn pub use mod const struct enum impl true false for in loop break continue'
               ' self Self crate ref'.split())
# what begins no statement that can be left out
BEGINNINGS = ('let', 'return', 'if', 'while', 'match', 'for', 'loop')
OTHER_RELATIONS = {'<': ('<=', '>', '>=', '!='), '<=': ('<', '>=', '>', '=='), '>': ('>=', '<', '<=', '!='),
                   '>=': ('>', '<=', '<', '=='), '==': ('!=', '<=', '>='), '!=': ('==', '<', '>')}
OTHER_OPERATORS = {'+': ('-', '*'), '-': ('+',), '*': ('+',), '/': ('%', '*'), '%': ('/',), '&': ('|', '^'), '|': ('&', '^'),
                   '^': ('|', '&'), '>>': ('<<',), '<<': ('>>',), '&&': ('||',), '||': ('&&',), '+=': ('-=',), '-=': ('+=',)}
# pairs of functions of the kit with one signature
OTHER_CALLEES = {'wrapping_add_u64': 'wrapping_sub_u64', 'wrapping_sub_u64': 'wrapping_add_u64',
                 'trailing_zeros': 'leading_zeros', 'leading_zeros': 'trailing_zeros'}
# parameters for which a number is tried too: the largest that is not refused
LARGEST = {'w': '64', 'nv': '6'}


def mutations(world, source):
    """Every mutation of a file, each once, sorted."""
    found = {}
    for mutation in sorted(Finder(world, source).all()):
        found.setdefault(mutation[:3], mutation)
    return list(found.values())


class Finder:
    def __init__(self, world, source):
        self.world, self.source = world, source
        self.tokens, self.text = source.tokens, source.text
        self.found, self.who, self.function, self.locals = [], '', None, None

    def all(self):
        for constant in self.source.constants:
            self.who = 'const ' + constant.name
            for i in range(constant.first, constant.last):
                if self.tokens[i].kind == 'num':
                    self.near(self.tokens[i], 'const')
        at_each = (self.relations, self.operators, self.numbers, self.constants, self.texts, self.conditions, self.variants,
                   self.variables, self.fields, self.struct_values, self.calls, self.statements, self.branches)
        for function in self.source.functions:
            self.who, self.function = '%s:%d' % (function.name, function.line), function
            self.locals = Locals(self.world, self.source, function)
            for i in range(function.first + 1, function.last):
                token, before, after = self.tokens[i], self.tokens[i - 1].text, self.tokens[i + 1].text
                for find in at_each:
                    find(i, token, before, after)
        return self.found

    # ---- what is put where

    def put(self, kind, start, end, new):
        if self.text[start:end] != new:
            self.found.append(Mutation(start, end, new, kind, self.who))

    def replace(self, kind, first, last, new):
        """Other text in place of the tokens `first` to `last`."""
        self.put(kind, self.tokens[first].start, self.tokens[last].end, new)

    def text_of(self, first, last):
        return self.text[self.tokens[first].start:self.tokens[last].end]

    def exchange(self, kind, one, two):
        """Two parts (first, last) exchanged, with the text between them left alone."""
        between = self.text[self.tokens[one[1] - 1].end:self.tokens[two[0]].start]
        self.replace(kind, one[0], two[1] - 1, self.text_of(two[0], two[1] - 1) + between + self.text_of(one[0], one[1] - 1))

    def near(self, token, kind='number'):
        """The numbers beside one."""
        digits, suffix = re.match(r'(0x[0-9a-fA-F_]+|\d[\d_]*)(.*)$', token.text).groups()
        value = int(digits.replace('_', ''), 0)
        for number in (value - 1, value + 1):
            if 0 <= number < 2 ** 64:
                shown = '%#x' % number if digits.startswith('0x') else str(number)
                self.put(kind, token.start, token.end, shown + suffix)

    def is_array_size(self, before, after):
        return before == ';' and after == ']'

    # ---- the kinds of mutation at a token

    def relations(self, i, token, before, after):
        if token.kind != 'op' or token.text not in OTHER_RELATIONS:
            return
        for other in OTHER_RELATIONS[token.text]:
            self.replace('relation', i, i, other)
        beyond = self.tokens[i + 2].text
        # a test that is never met, a loop that never runs
        if token.text == '<' and self.tokens[i + 1].kind in ('id', 'num') and beyond == '{':
            self.replace('never', i + 1, i + 1, '0')
        alone = self.tokens[i - 1].kind in ('id', 'num') and self.tokens[i - 2].text in ('if', 'while', '(', '{', ';', '}')
        if token.text not in ('==', '!=') and alone and beyond in ('{', ';', ')'):
            self.replace('operands', i - 1, i + 1, '%s %s %s' % (after, token.text, before))

    def operators(self, i, token, before, after):
        is_binary = self.tokens[i - 1].kind in ('id', 'num') or before in (')', ']')
        if token.kind != 'op' or not is_binary:
            return
        if not (token.text in '&*' and before in KEYWORDS):
            for other in OTHER_OPERATORS.get(token.text, ()):
                self.replace('operator', i, i, other)
        names = self.tokens[i - 1].kind == 'id' and self.tokens[i + 1].kind == 'id'
        ends = self.tokens[i + 2].text in (';', ')', '{', ',') and self.tokens[i - 2].text in ('=', '(', 'return', '{', ',', '+')
        if token.text in ('-', '/', '>>', '<<', '%') and names and ends:
            self.replace('operands', i - 1, i + 1, '%s %s %s' % (after, token.text, before))

    def numbers(self, i, token, before, after):
        if token.kind == 'num' and before != '.' and not self.is_array_size(before, after):
            self.near(token)

    def constants(self, i, token, before, after):
        """A named constant: the numbers beside it, and the file's other constants of its type."""
        is_name = token.kind == 'id' and token.text.isupper() and len(token.text) > 2
        if not is_name or before == '.' or self.is_array_size(before, after):
            return
        constant = self.world.constant(self.source.crate, token.text)
        first = i
        while self.tokens[first - 1].text == '::':
            first -= 2
        if constant and constant[1] is not None:
            for number in (constant[1] - 1, constant[1] + 1):
                if 0 <= number < 2 ** 64:
                    self.replace('number', first, i, str(number))
        if constant and first == i:
            for other in self.source.constants:
                if other.type == constant[0]:
                    self.replace('constant', i, i, other.name)

    def texts(self, i, token, before, after):
        if token.kind == 'byte':
            for other in ("b'0'", "b' '", "b'\\n'", "b'+'"):
                self.replace('byte', i, i, other)
        if token.kind == 'str' and len(token.text) > 4:
            self.replace('byte', i, i, token.text[:2] + token.text[3:])

    def conditions(self, i, token, before, after):
        if token.text in ('true', 'false'):
            self.replace('bool', i, i, 'false' if token.text == 'true' else 'true')
        if token.text not in ('if', 'while') or after == 'let':
            return
        if after == '!':
            self.replace('negate', i + 1, i + 1, '')
            return
        body = i + 1
        while self.tokens[body].text != '{':
            body = close_of(self.tokens, body) + 1 if opens(self.tokens[body]) else body + 1
        if not any(word in COMPARISONS for word in self.source.words(i + 1, body)):
            self.replace('negate', i + 1, body - 1, '!' + self.text_of(i + 1, body - 1))
        # a whole test that returns is left out
        end = close_of(self.tokens, body)
        returns = self.tokens[body + 1].text == 'return' and self.tokens[end + 1].text != 'else' and before != 'else'
        if token.text == 'if' and returns:
            self.replace('skip-test', i, end, '')

    def variants(self, i, token, before, after):
        """Another variant of an enum with the same contents or with none; not in a pattern, where two arms would have to change."""
        if token.kind != 'id' or before != '::' or self.tokens[i - 2].text not in self.world.enums:
            return
        arms = self.world.enums[self.tokens[i - 2].text]
        own = dict(arms).get(token.text)
        last = close_of(self.tokens, i + 1) if own and self.tokens[i + 1].text in ('(', '{') else i
        if self.tokens[last + 1].text in ('=>', '='):
            return
        for name, contents in arms:
            if name != token.text and contents == own:
                self.replace('variant', i, i, name)
            elif name != token.text and own and contents == '':
                self.replace('variant', i, last, name)

    def variables(self, i, token, before, after):
        known = self.locals.at(i)
        is_label = after == ':' and self.tokens[i + 2].text != ':'
        is_use = before not in ('.', 'let', 'mut', '::') and after not in ('::', '(') and not is_label
        if token.kind != 'id' or token.text not in known or not is_use:
            return
        own = known[token.text]
        shown = '%s'
        if before in ('{', ',') and after in (',', '}') and self.tokens[open_of(self.tokens, i)].text == '{':
            shown = token.text + ': %s'  # the short form of a field
        for name, type_ in known.items():
            if name != token.text and type_ == own != '?':
                self.replace('variable', i, i, shown % name)
        if own == 'u32' and token.text in LARGEST and before in ('(', ',') and after in (',', ')'):
            self.replace('number', i, i, LARGEST[token.text])

    def fields(self, i, token, before, after):
        if token.kind != 'id' or before != '.' or after == '(':
            return
        fields = next((fields for fields in self.world.structs.values() if token.text in dict(fields)), [])
        for name, type_ in fields:
            if type_ == dict(fields)[token.text] and not name.isdigit():
                self.replace('field', i, i, name)

    def struct_values(self, i, token, before, after):
        """The values of two fields of one type exchanged."""
        if token.kind != 'id' or token.text not in self.world.structs or after != '{':
            return
        types = dict(self.world.structs[token.text])
        parts = split_at_commas(self.tokens, i + 2, close_of(self.tokens, i + 1))
        names = [self.tokens[first].text for first, _ in parts]
        values = [self.text_of(first + 2, last - 1) if last - first > 1 and self.tokens[first + 1].text == ':' else name
                  for name, (first, last) in zip(names, parts)]
        for m in range(len(parts)):
            for n in range(m + 1, len(parts)):
                if types.get(names[m]) == types.get(names[n]) and values[m] != values[n]:
                    other = list(values)
                    other[m], other[n] = values[n], values[m]
                    self.replace('exchange', i + 2, parts[-1][1] - 1, ', '.join('%s: %s' % both for both in zip(names, other)))

    def calls(self, i, token, before, after):
        """Two arguments of one type exchanged; another function of the same file and signature."""
        if token.kind != 'id' or after != '(' or token.text in KEYWORDS or before == 'fn':
            return
        arguments = split_at_commas(self.tokens, i + 2, close_of(self.tokens, i + 1))
        for source, callee in self.world.functions.get(token.text, []):
            types = [type_ for name, type_ in callee.params if not (before == '.' and name == 'self')]
            if len(types) != len(arguments):
                continue
            for m in range(len(types)):
                for n in range(m + 1, len(types)):
                    if types[m] == types[n]:
                        self.exchange('exchange', arguments[m], arguments[n])
            for other in source.functions:
                alike = other.result == callee.result and [p[1] for p in other.params] == [p[1] for p in callee.params]
                if alike and other.name not in (token.text, self.function.name):
                    self.replace('callee', i, i, other.name)
            break
        if token.text in OTHER_CALLEES:
            self.replace('callee', i, i, OTHER_CALLEES[token.text])
        if token.text == 'wrapping_sub_u64' and len(arguments) == 2:
            self.exchange('exchange', *arguments)

    def statements(self, i, token, before, after):
        """A statement left out, and two neighbours exchanged."""
        begins = token.kind == 'op' and token.text in (';', '{', '}') and self.tokens[i + 1].kind == 'id'
        if not begins or after in BEGINNINGS + ('else',):
            return
        end = end_of_statement(self.tokens, i + 1, self.function.last)
        if end is None:
            return
        self.replace('drop', i + 1, end, '')
        following = self.tokens[end + 1]
        if following.kind == 'id' and following.text not in BEGINNINGS:
            last = end_of_statement(self.tokens, end + 1, self.function.last)
            if last is not None:
                self.exchange('reorder', (i + 1, end + 1), (end + 1, last + 1))

    def branches(self, i, token, before, after):
        """The two names of a short `if` exchanged."""
        shape = self.source.words(i - 3, i + 4)
        if shape[:1] + shape[2:5] + shape[6:] == ['{', '}', 'else', '{', '}'] and self.tokens[i - 2].kind == 'id':
            self.replace('operands', i - 3, i + 3, '{ %s } else { %s }' % (shape[5], shape[1]))

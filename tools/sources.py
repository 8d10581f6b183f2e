"""Reads crates, modules, calls and their clauses out of the .rt sources. Used by the scripts beside it; Python's standard library alone."""
import os
import re

TOP = os.path.abspath(os.path.join(os.path.dirname(os.path.abspath(__file__)), '..'))
TESTS = {'reading_tests', 'shard_tests', 'program_tests', 'test_gates'}
CLAUSE = re.compile(r'\s*(requires|ensures|decreases)\b\s*([A-Za-z_0-9]*)\s*\{')
ITEM = re.compile(r'(?:(pub)(\([a-z]+\))?\s+)?(?:(const)\s+)?(fn|impl|trait|struct|enum|mod|const|use)\b')


def crates():
    """The crates in the order of crates.txt, each with those that it stands on."""
    found = {}
    with open(os.path.join(TOP, 'crates.txt'), encoding='utf-8') as lines:
        for line in lines:
            if line.strip() and not line.startswith('#'):
                name, _, uses = line.partition(':')
                found[name.strip()] = uses.split()
    return found


def blanked(text):
    """The text without comments, and with nothing between quotes, so that braces and words count."""
    out, at = [], 0
    pattern = re.compile(r'//[^\n]*|b?"(?:\\.|[^"\\])*"|b?\'(?:\\.[^\']*|[^\'\\])\'', re.S)
    for match in pattern.finditer(text):
        out.append(text[at:match.start()])
        out.append('' if match.group().startswith('//') else '""' if '"' in match.group() else "' '")
        at = match.end()
    return ''.join(out) + text[at:]


def closing(text, at, pair='{}'):
    """The place behind what closes the bracket at this place."""
    depth = 0
    while True:
        depth += {pair[0]: 1, pair[1]: -1}.get(text[at], 0)
        at += 1
        if depth == 0:
            return at


def short(text):
    """On one line, without blanks and commas that line breaks left."""
    text = re.sub(r'\s+', ' ', text).strip()
    return re.sub(r',\s*([)\]>])', r'\1', re.sub(r'([(<\[])\s+', r'\1', text)).replace(' )', ')')


class Call:
    """A function or method: where it stands, its signature, its conditions and what its body names."""

    def __init__(self, crate, module, owner, name, public, signature, requires, body):
        self.crate, self.module, self.owner, self.name = crate, module, owner, name
        self.public, self.signature, self.requires, self.body = public, signature, requires, body
        self.trait = None

    def is_law(self):
        """Whether this is a law, which takes nothing, gives nothing and does nothing."""
        return self.signature.endswith('()') and not self.body.strip('{ \n};')

    def title(self):
        return f'{self.owner}::{self.name}' if self.owner else self.name


def header_end(text, at):
    """The place where a function's signature ends: at a clause, its body or its semicolon."""
    depth = 0
    while True:
        letter = text[at]
        if depth == 0 and (letter in '{;' or CLAUSE.match(text, at - 1)):
            return at
        depth += {'(': 1, ')': -1, '[': 1, ']': -1}.get(letter, 0)
        at += 1


def function(crate, module, owner, public, text, start):
    """The call that begins here, and the place behind it."""
    at = header_end(text, start)
    signature = short(text[start:at])
    name = re.match(r'(?:const )?fn (\w+)', signature).group(1)
    requires = []
    while match := CLAUSE.match(text, at - 1 if text[at - 1].isspace() else at):
        end = closing(text, match.end() - 1)
        if match.group(1) == 'requires':
            requires.append((match.group(2), ' '.join(text[match.end():end - 1].split())))
        at = end
    while text[at].isspace():
        at += 1
    end = at + 1 if text[at] == ';' else closing(text, at)
    return Call(crate, module, owner, name, public, signature, requires, text[at:end]), end


def owner_of(header):
    """The type whose methods a block has, and the trait, if it is one's."""
    header = short(header)
    if header.startswith('impl<'):
        header = header[closing(header, 4, '<>'):]
    else:
        header = header[4:]
    trait, of, kind = header.partition(' for ')
    kind = kind if of else trait
    return re.match(r'[\w:]+', kind.strip().lstrip('&')).group().split('::')[-1], trait.strip() if of else None


class Module:
    """What a file declares."""

    def __init__(self, crate, name, text):
        self.crate, self.name = crate, name
        self.calls, self.types, self.uses, self.modules, self.consts = [], {}, {}, {}, set()
        self.given = {}
        self.text = blanked(text)
        self.read(self.text)

    def read(self, text):
        at = 0
        while match := ITEM.search(text, at):
            start, kind = match.start(), match.group(4)
            line = text[text.rfind('\n', 0, start) + 1:start]
            if line.strip().startswith('ghost') or line.strip():
                at = match.end()
                continue
            public = bool(match.group(1)) and not match.group(2)
            at = getattr(self, 'read_' + kind)(text, match, public)

    def read_fn(self, text, match, public):
        call, end = function(self.crate, self.name, None, public, text, match.start(3) if match.group(3) else match.start(4))
        self.calls.append(call)
        return end

    def block(self, text, match, owner, public_all, trait=None):
        opening = text.index('{', match.end())
        end = closing(text, opening)
        at = opening + 1
        pattern = re.compile(r'(?:(pub)(\([a-z]+\))?\s+)?(?:const )?\bfn\b')
        while (inner := pattern.search(text, at)) and inner.start() < end:
            start = text.index('fn', inner.start())
            public = public_all or (bool(inner.group(1)) and not inner.group(2))
            call, at = function(self.crate, self.name, owner, public, text, start)
            call.trait = trait
            self.calls.append(call)
        return end

    def read_impl(self, text, match, _):
        opening = text.index('{', match.end())
        owner, trait = owner_of(text[match.start(4):opening])
        return self.block(text, match, owner, False, trait)

    def read_trait(self, text, match, public):
        name = re.match(r'\s*(\w+)', text[match.end():]).group(1)
        self.types[name] = ('trait', public, '')
        return self.block(text, match, name, public)

    def read_type(self, text, match, public, kind):
        name = re.match(r'\s*(\w+)', text[match.end():]).group(1)
        at = match.end()
        while text[at] not in '{;(':
            at += 1
        end = at + 1 if text[at] == ';' else closing(text, at, {'{': '{}', '(': '()'}[text[at]])
        self.types[name] = (kind, public, short(text[match.start(4):end]))
        return end

    def read_struct(self, text, match, public):
        return self.read_type(text, match, public, 'struct')

    def read_enum(self, text, match, public):
        return self.read_type(text, match, public, 'enum')

    def read_mod(self, text, match, public):
        self.modules[re.match(r'\s*(\w+)', text[match.end():]).group(1)] = public
        return match.end()

    def read_const(self, text, match, public):
        self.consts.add(re.match(r'\s*(\w+)', text[match.end():]).group(1))
        return text.index(';', match.end())

    def read_use(self, text, match, public):
        end = text.index(';', match.end())
        for path in spread(short(text[match.end():end]).strip()):
            source, _, name = path.partition(' as ')
            name = name or source.split('::')[-1]
            (self.given if public else self.uses)[name] = source
            self.uses[name] = source
        return end


def spread(path):
    """`a::{b, c::d}` as `a::b` and `a::c::d`."""
    opening = path.find('{')
    if opening < 0:
        return [path.strip()]
    front, inner, parts, depth, start = path[:opening], path[opening + 1:path.rindex('}')], [], 0, 0
    for place, letter in enumerate(inner + ','):
        depth += {'{': 1, '}': -1}.get(letter, 0)
        if letter == ',' and depth == 0:
            part = inner[start:place].strip()
            start = place + 1
            if part:
                parts += [front + more for more in spread(part)] if part != 'self' else [front[:-2]]
    return parts


class Crate:
    """The modules of a crate, and what its lib.rt gives."""

    def __init__(self, name):
        self.name, self.modules = name, {}
        root = os.path.join(TOP, 'crates', name, 'src')
        for folder, _, files in sorted(os.walk(root)):
            for file in sorted(files):
                if file.endswith('.rt'):
                    path = os.path.relpath(os.path.join(folder, file), root)[:-3].replace(os.sep, '::')
                    with open(os.path.join(folder, file), encoding='utf-8') as text:
                        self.modules[path] = Module(name, path, text.read())

    def given(self):
        """The names that lib.rt gives, each with the module that it stands in: its own, and those of its public modules."""
        lib = self.modules.get('lib') or self.modules['main']
        names = {}
        for name, source in lib.given.items():
            parts = source.split('::')
            if parts[0] in lib.modules:
                names[name] = '::'.join(parts[:-1])
        for module, public in lib.modules.items():
            if public and module != 'laws' and module in self.modules:
                for thing in self.modules[module].calls:
                    if thing.public and not thing.owner:
                        names[f'{module}::{thing.name}'] = module
                for thing, (_, is_public, _) in self.modules[module].types.items():
                    if is_public:
                        names[f'{module}::{thing}'] = module
        return names

    def calls(self):
        """The public calls, in the order of their modules: functions and methods of types that lib.rt gives."""
        names = self.given()
        found = []
        for module in self.modules.values():
            for call in module.calls:
                top = call.owner or call.name
                for name, place in names.items():
                    if call.public and not call.is_law() and name.split('::')[-1] == top and (place == module.name or call.owner):
                        found.append((name.rsplit('::', 1)[0] + '::' if '::' in name else '', call))
                        break
        return found


def all_crates():
    return {name: Crate(name) for name in crates()}

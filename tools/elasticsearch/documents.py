"""The documents of a dump as the documents of a script: only what the mapping has, each value as it is or, where it is no value of its
field's type here but the same number in another form, in that form. What stays no value is refused by the program, document by document."""
import gzip
import io
import sys
from collections import Counter

from elasticsearch import dates, exact
from elasticsearch.mapping import Node

ACTIONS = ('index', 'create', 'delete', 'update')
MOST_WHOLE = 2**64


def _keyword(value, leaf):
    if isinstance(value, exact.Number):
        return value.text
    if isinstance(value, int) and not isinstance(value, bool) and not -MOST_WHOLE // 2 <= value < MOST_WHOLE:
        return str(value)
    return value


def _whole(value, leaf):
    if isinstance(value, bool) or isinstance(value, int):
        return value
    if value == '':
        return None  # An empty text is no value of a number in Elasticsearch.
    found = exact.whole(value)
    return value if found is None or value == str(found) else found


def _scaled(value, leaf):
    if value == '':
        return None
    found = exact.decimal(value)
    if found is None:
        return value
    above, below = exact.ratio(found)
    product, rest = divmod(above * leaf.scale, below)
    return value if rest else product


def _date(value, leaf):
    if value == '':
        return None
    found = dates.millis(value.text if isinstance(value, exact.Number) else value, leaf.form)
    return value if found is None else found


def _boolean(value, leaf):
    return value


READ = {'keyword': _keyword, 'whole': _whole, 'scaled': _scaled, 'date': _date, 'boolean': _boolean}


def is_value(value, read):
    """Whether the program takes this as a value of such a field; its range apart."""
    if value is None or isinstance(value, bool):
        return read in ('keyword', 'boolean') or value is None
    if isinstance(value, int):
        return read != 'boolean'
    if not isinstance(value, str):
        return False
    if read == 'boolean':
        return value in ('true', 'false', '')
    return read == 'keyword' or value.removeprefix('-').isdigit() and value.isascii()


def short(value, most):
    """The words that are no longer than this, by the units in which Elasticsearch counts them (UTF-16); null in the place of others."""
    if not isinstance(most, int):
        return value
    if isinstance(value, list):
        return [short(it, most) for it in value]
    if isinstance(value, str) and len(value) + sum(it > '\uffff' for it in value) > most:
        return None
    return value


class Converter:
    def __init__(self, mapping):
        self.root = mapping.root
        # What happened to values, by field, each counted.
        self.counts = Counter()

    def document(self, source):
        return self._object(source, self.root, '')

    def _object(self, source, node, at):
        out = {}
        for name, value in source.items():
            below = node.below.get(name)
            if below is not None:
                self._put(out, name, below, value, at)
                continue
            # A name with dots stands for objects in one another; through a nested object it makes a row.
            head, dot, rest = name.partition('.')
            below = node.below.get(head) if dot else None
            if isinstance(below, Node):
                for it in value if below.is_nested and isinstance(value, list) and any(isinstance(it, dict) for it in value) else [value]:
                    self._put(out, head, below, {rest: it}, at)
        return out

    def _put(self, out, name, below, value, at):
        if isinstance(below, Node):
            self._add(out, name, self._objects(value, below, f'{at}{name}.'))
            return
        found = self._values(value, below, at + name)
        if below.sub:
            self._add(out, name, {it: short(found, below.most.get(it)) for it in below.sub})
        else:
            self._add(out, name, short(found, below.most.get(None)))

    def _add(self, out, name, value):
        if name in out:
            first = out[name] if isinstance(out[name], list) else [out[name]]
            out[name] = first + (value if isinstance(value, list) else [value])
        else:
            out[name] = value

    def _objects(self, value, node, at):
        if isinstance(value, dict):
            return self._object(value, node, at)
        if isinstance(value, list):
            return [self._objects(it, node, at) for it in value]
        return value

    def _values(self, value, leaf, path):
        if isinstance(value, list):
            return [self._values(it, leaf, path) for it in value]
        if value is None:
            if leaf.null is None:
                return None
            self.counts[f'{path}: null stands for its null_value, as in Elasticsearch'] += 1
            value = leaf.null
        found = READ[leaf.read](value, leaf)
        if is_value(found, leaf.read):
            return found
        if leaf.is_lenient:
            self.counts[f'{path}: a value of another form is no value (ignore_malformed), as in Elasticsearch'] += 1
            return None
        reason = {
            'whole': 'a fraction or another form of value in a field of whole numbers',
            'scaled': f'more places than its scale of {leaf.scale} has',
            'date': 'a date that is not read',
        }.get(leaf.read, 'another form of value')
        self.counts[f'REFUSED {path}: {reason}; the program refuses such a document (item refusal 21)'] += 1
        return found


class Action:
    """One bulk action: its name, the members of its line, and its source where it has one."""

    __slots__ = ('name', 'meta', 'source')

    def __init__(self, name, meta, source=None):
        self.name, self.meta, self.source = name, meta, source


def text_of(path):
    """The text of a file, or of standard input for `-`; unpacked, and without a mark of its byte order."""
    if path == '-':
        raw = sys.stdin.buffer
    else:
        raw = open(path, 'rb')
    raw = io.BufferedReader(raw) if not isinstance(raw, io.BufferedReader) else raw
    if raw.peek(2)[:2] == b'\x1f\x8b':
        raw = gzip.open(raw, 'rb')
    return io.TextIOWrapper(raw, encoding='utf-8-sig', newline='\n')


def values_of(file):
    """The JSON values of a file: one a line, or, where the first line is not a whole one, as they stand behind one another."""
    is_first = True
    for number, line in enumerate(file, 1):
        if not line.strip():
            continue
        try:
            value = exact.read(line)
        except ValueError:
            if is_first:
                yield from exact.read_all(line + file.read())
                return
            raise ValueError(f'line {number} of the dump is not JSON') from None
        is_first = False
        yield value


def _hits(value):
    if isinstance(value, list):
        return value
    hits = value.get('hits')
    return hits.get('hits') if isinstance(hits, dict) else None


def actions(values, left):
    """The bulk actions of a dump in any of its forms: lines of elasticdump, answers with hits, or lines of _bulk. `left` counts what
    can't be taken."""
    for value in values:
        found = _hits(value) if isinstance(value, (dict, list)) else None
        for it in [value] if found is None else found:
            if not isinstance(it, dict):
                raise ValueError('the dump has a value that is no object')
            if '_source' in it or '_id' in it:
                if not isinstance(it.get('_source'), dict):
                    left['a hit without its source'] += 1
                    continue
                meta = {name: it[name] for name in ('_index', '_id') if it.get(name) is not None}
                fields = it.get('fields') if isinstance(it.get('fields'), dict) else {}
                routing = it.get('_routing', fields.get('_routing'))
                routing = routing[0] if isinstance(routing, list) and len(routing) == 1 else routing
                yield Action('index', {**meta, **({} if routing is None else {'routing': routing})}, it['_source'])
                continue
            name, meta = next(iter(it.items())) if len(it) == 1 else (None, None)
            if name not in ACTIONS or not isinstance(meta, dict):
                raise ValueError('the dump has a line that is no hit and no bulk action: ' + exact.write(it)[:120])
            source = None if name == 'delete' else next(values, None)
            if name == 'update':
                left['an update: what it makes is not known from the dump'] += 1
                continue
            if name != 'delete' and not isinstance(source, dict):
                raise ValueError(f'the dump has a bulk action {name} without its source')
            kept = {it: meta[it] for it in ('_index', '_id') if meta.get(it) is not None}
            routing = meta.get('routing', meta.get('_routing'))
            yield Action(name, {**kept, **({} if routing is None else {'routing': routing})}, source)

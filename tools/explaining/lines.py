"""The parts of a script by their lines, as the program takes them, and what a line looks like."""
from elasticsearch import exact
from elasticsearch.bodies import FREE, HEADERS, LEFT

BODY = {'aggs', 'aggregations', 'query', 'runtime_mappings', *FREE, *LEFT}
ACTIONS = ('index', 'create', 'delete', 'update')


def value_of(line):
    """The JSON value of a line; none where it is not JSON."""
    try:
        return exact.read(line.decode('utf-8'))
    except (ValueError, RecursionError):
        return None


def why_not_json(line):
    """In words, why a line is no JSON."""
    if line.startswith(b'\xef\xbb\xbf'):
        return 'it begins with a mark of the byte order (EF BB BF), which is no JSON: save the file without it'
    if line.startswith(b'\x1f\x8b'):
        return 'it is packed (gzip): unpack it first, as in `zcat script.gz | ./aggs`'
    try:
        text = line.decode('utf-8')
    except UnicodeDecodeError as why:
        return f'its byte {why.start + 1} is no UTF-8 (Latin-1, perhaps): `iconv -f latin1 -t utf-8` converts it'
    if not text.strip():
        return 'it is empty' if not text else 'it has blanks alone, and is not empty'
    if text.strip() in ('{', '['):
        return 'it is the beginning of JSON that is printed on several lines: write it on one line, as `python3 -m json.tool --compact` does'
    try:
        exact.read(text)
    except RecursionError:
        return 'it has too many levels'
    except ValueError as why:
        place = getattr(why, 'pos', None)
        if place is None:
            return str(why)
        if "'" in text and '"' not in text:
            return 'names and texts stand in single quotes: JSON has double ones'
        return f'at its character {place + 1} ({text[place:place + 12]!r}): {why.msg}'
    return 'it has more than 127 levels'


def is_action(value):
    return isinstance(value, dict) and len(value) == 1 and next(iter(value)) in ACTIONS and isinstance(next(iter(value.values())), dict)


def is_body(value):
    return isinstance(value, dict) and any(it in BODY for it in value)


def is_settings(value):
    return isinstance(value, dict) and len(value) == 1 and next(iter(value)) in ('persistent', 'transient')


def is_header(value):
    return isinstance(value, dict) and all(it in HEADERS for it in value)


class Entry:
    """A search or a settings line: the numbers of its lines, from 1, and their bytes."""

    def __init__(self, number, header, body=None, is_settings_line=False):
        self.number, self.header, self.body, self.is_settings_line = number, header, body, is_settings_line


class Script:
    def __init__(self, text):
        lines = text.split(b'\n')
        if lines and not lines[-1]:
            lines.pop()
        self.lines = [it[:-1] if it.endswith(b'\r') else it for it in lines]
        self.index = value_of(self.lines[0]) if self.lines else None
        # The line of each bulk action and of its source, where it has one.
        self.actions, self.entries = [], []
        at = 2
        while at < len(self.lines) and self.lines[at] != b'':
            value = value_of(self.lines[at])
            name = next(iter(value)) if isinstance(value, dict) and value else None
            self.actions.append((at + 1, name))
            at += 1 if name == 'delete' else 2
        at += 1
        while at < len(self.lines):
            if not self.lines[at]:
                at += 1  # An empty line where a header is due is passed over.
                continue
            header = value_of(self.lines[at])
            if is_settings(header):
                self.entries.append(Entry(at + 1, header, is_settings_line=True))
                at += 1
                continue
            body = self.lines[at + 1] if at + 1 < len(self.lines) else None
            self.entries.append(Entry(at + 1, header, body))
            at += 2

    def line(self, number):
        return self.lines[number - 1] if 1 <= number <= len(self.lines) else b''

    def shown(self, number, most=160):
        text = self.line(number).decode('utf-8', 'backslashreplace')
        return text if len(text) <= most else text[:most] + ' ..'

    def mapping(self):
        found = self.index.get('mappings') if isinstance(self.index, dict) else None
        return found if isinstance(found, dict) else {}

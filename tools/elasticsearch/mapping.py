"""The mapping of an Elasticsearch index as the mapping of a script, and what becomes of each field.

One table, `TYPES`, says what each type of field becomes; `DATES` says what a date becomes. What is left out keeps its reason, so that
a search that names it is told why."""
from elasticsearch import dates

WHOLE = ('long', 'integer', 'short', 'byte')
FRACTIONS = ('double', 'float', 'half_float', 'scaled_float')
# What each type of field becomes: the type here and how its values are read, or why it is left out.
TYPES = {
    **{it: (it, 'whole') for it in WHOLE},
    'unsigned_long': ('long', 'whole'),
    'keyword': ('keyword', 'keyword'),
    'wildcard': ('keyword', 'keyword'),
    'boolean': ('boolean', 'boolean'),
    **{it: 'a number with a fraction: --scale FIELD=100 reads it in hundredths' for it in FRACTIONS},
    'text': 'text without a keyword below it',
    'match_only_text': 'text without a keyword below it',
    'search_as_you_type': 'text without a keyword below it',
    'date': ('date', 'date'),
    'date_nanos': 'a date in nanoseconds',
    'constant_keyword': 'its value stands in the mapping, and not in the documents',
    'ip': 'addresses are ordered by their bytes, which no type here is',
    'version': 'versions are ordered by their parts, which no type here is',
}
# What a date becomes, by the option --dates. Its values are written as milliseconds in either form, whatever their format was.
DATES = {
    'dates': TYPES['date'],
    'millis': ('long', 'date'),
    'leave': 'a date: --dates leave leaves them out',
}
# Members of a field that change the values that are counted, so that the field is left out.
CHANGING = {
    'normalizer': 'a normalizer changes its words, and the documents have them as they were',
    'script': 'its values are computed, and stand in no document',
}


class Field:
    """A field of the script: its type here, how values are read, and what a search must know of it."""

    def __init__(self, path, kind, read, scale=1, form=None, context=''):
        self.path, self.kind, self.read, self.scale, self.form, self.context = path, kind, read, scale, form, context


class Leaf:
    """What becomes of the values of a field in documents: `sub` has the fields below a text, and `most` the length beyond which a word is
    no value (`ignore_above`); both by the name of the field below, which is none for the field itself."""

    def __init__(self, read, scale=1, form=None, sub=(), null=None, is_lenient=False, most=None):
        self.read, self.scale, self.form, self.sub, self.null, self.is_lenient = read, scale, form, sub, null, is_lenient
        self.most = most or {}


class Node:
    """An object or nested object of the mapping, with what stands below it."""

    def __init__(self, is_nested=False):
        self.is_nested, self.below = is_nested, {}


class Mapping:
    def __init__(self, mappings, date='dates', scales=None):
        self.date, self.scales = DATES[date], dict(scales or {})
        # Fields by their path; other names of fields; paths that are left out with their reasons; nested paths.
        self.fields, self.names, self.left, self.nested = {}, {}, {}, {}
        # What a reader of the script should know, each once.
        self.notes = []
        self.used_scales = set()
        # Nested paths whose fields count in the documents around too.
        self.included = set()
        self.root = Node()
        self.targets = set()
        self._find_targets(mappings.get('properties') or {})
        self.properties = self._properties(mappings.get('properties') or {}, '', '', self.root)
        for name in mappings.get('runtime') or {}:
            self._leave(name, 'its values are computed, and stand in no document')
        source = mappings.get('_source') or {}
        if source.get('enabled') is False or source.get('excludes') or source.get('includes'):
            self.notes.append('the index does not keep the whole of its documents (_source): what a dump lacks is counted nowhere')
        for name in self.scales:
            if name not in self.used_scales:
                self.notes.append(f'--scale {name}: the mapping has no such field with fractions')

    def _leave(self, path, reason):
        self.left[path] = reason

    def _find_targets(self, properties):
        for field in properties.values():
            targets = field.get('copy_to') or []
            self.targets.update([targets] if isinstance(targets, str) else targets)
            self._find_targets(field.get('properties') or {})

    def _properties(self, properties, at, context, node):
        out = {}
        for name, field in properties.items():
            path = at + name
            parts = name.split('.')
            if not all(parts):
                self._leave(path, 'its name has an empty part')
                continue
            here, below, is_free = out, node, True
            for part in parts[:-1]:
                there = here.setdefault(part, {'properties': {}})
                inner = below.below.setdefault(part, Node())
                if not isinstance(inner, Node) or 'properties' not in there:
                    is_free = False
                    break
                here, below = there['properties'], inner
            if not is_free or (parts[-1] in here and 'properties' not in field):
                self._leave(path, 'a field of the same index has the beginning of its name')
                continue
            made = self._field(parts[-1], field, path, context, below)
            if made is not None:
                here[parts[-1]] = made
        return out

    def _field(self, name, field, path, context, node):
        kind = field.get('type', 'object')
        if kind in ('object', 'nested'):
            if field.get('enabled', True) is False:
                return self._leave(path, 'an object that is not indexed (enabled)')
            if field.get('include_in_parent') or field.get('include_in_root'):
                self.included.add(path)
                self.notes.append(f'{path}: its fields count in the documents around too (include_in_parent, include_in_root): a search '
                                  'that uses them there is refused')
            below = node.below.setdefault(name, Node())
            below.is_nested = kind == 'nested'
            inner = path if kind == 'nested' else context
            if kind == 'nested':
                self.nested[path] = context
            made = {'type': kind} if kind == 'nested' else {}
            made['properties'] = self._properties(field.get('properties') or {}, path + '.', inner, below)
            return made
        if kind == 'alias':
            self.names[path] = field.get('path', '')
            return None
        if path in self.targets:
            return self._leave(path, 'its values are copied from other fields (copy_to)')
        for member, reason in CHANGING.items():
            if member in field:
                return self._leave(path, reason)
        below = field.get('fields') or {}
        if kind in ('text', 'match_only_text', 'search_as_you_type'):
            return self._text(name, field, below, path, context, node)
        becomes, scale = self._becomes(kind, path, field.get('format'))
        if isinstance(becomes, str):
            self._leave(path, becomes)
        else:
            self._keep(name, field, becomes, scale, path, context, node)
        for sub, it in below.items():
            self._sub(path, sub, it, field, not isinstance(becomes, str))
        return None if isinstance(becomes, str) else self._made(becomes[0], field)

    def _becomes(self, kind, path, form):
        if kind in FRACTIONS and path in self.scales:
            self.used_scales.add(path)
            return ('long', 'scaled'), self.scales[path]
        if kind == 'date':
            return (self.date if isinstance(self.date, str) or dates.is_read(form) else f'a date of the format {form}'), 1
        return TYPES.get(kind, f'the type {kind} is left out'), 1

    def _made(self, kind, field):
        made = {'type': kind}
        if kind == 'keyword' and 'ignore_above' in field:
            made['ignore_above'] = field['ignore_above']
        return made

    def _keep(self, name, field, becomes, scale, path, context, node):
        kind, read = becomes
        form = field.get('format') if read == 'date' else None
        node.below[name] = Leaf(read, scale, form, null=field.get('null_value'), is_lenient=field.get('ignore_malformed') in (True, 'true'),
                               most={None: field.get('ignore_above')} if read == 'keyword' else None)
        self.fields[path] = Field(path, kind, read, scale, form, context)

    def _text(self, name, field, below, path, context, node):
        kept = {}
        for sub, it in below.items():
            if it.get('type') == 'keyword' and 'normalizer' not in it and it.get('null_value') is None:
                kept[sub] = self._made('keyword', it)
                self.fields[f'{path}.{sub}'] = Field(f'{path}.{sub}', 'keyword', 'keyword', context=context)
            else:
                self._leave(f'{path}.{sub}', CHANGING['normalizer'] if 'normalizer' in it else f'the type {it.get("type")} below a text')
        if not kept:
            return self._leave(path, TYPES['text'])
        self.left[path] = f'text: use {path}.{next(iter(kept))}'
        node.below[name] = Leaf('keyword', sub=tuple(kept), most={sub: it.get('ignore_above') for sub, it in kept.items()})
        return {'properties': kept}

    def _sub(self, path, sub, it, field, is_kept):
        """A field below a field: another name for it where it has the same values, and left out else."""
        same = is_kept and it.get('type') == field.get('type') and it.get('type') in ('keyword', *WHOLE, 'boolean')
        alike = all(it.get(name) == field.get(name) for name in ('ignore_above', 'normalizer', 'null_value'))
        if same and alike:
            self.names[f'{path}.{sub}'] = path
        else:
            self._leave(f'{path}.{sub}', f'a field below a field, of type {it.get("type")}')

    def keep_only(self, paths, nested):
        """Leaves out each field and each nested path that no search names."""
        around = set()
        for path in [*paths, *nested]:
            parts = path.split('.')
            around.update('.'.join(parts[:end]) for end in range(1, len(parts) + 1))

        def prune(properties, at, node):
            for name in list(properties):
                path = at + name
                below = node.below.get(name)
                if 'properties' in properties[name] and isinstance(below, Node):
                    prune(properties[name]['properties'], path + '.', below)
                    if not properties[name]['properties'] and path not in nested:
                        del properties[name], node.below[name]
                elif isinstance(below, Leaf) and below.sub:
                    kept = [it for it in below.sub if f'{path}.{it}' in around]
                    properties[name]['properties'] = {it: properties[name]['properties'][it] for it in kept}
                    below.sub = tuple(kept)
                    if not kept:
                        del properties[name], node.below[name]
                elif path not in around:
                    del properties[name], node.below[name]
        prune(self.properties, '', self.root)

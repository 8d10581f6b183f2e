"""What is wrong with a script that is refused, from the line at which it was."""
import difflib

from elasticsearch.mapping import TYPES
from explaining.lines import is_action, is_body, is_header, value_of, why_not_json

TOOL = 'tools/from-elasticsearch makes a script of it'


def why(script, error):
    """In words, why a script is refused, from its error line."""
    number, line = error.get('number'), error.get('line', 0)
    return {30: _long, 31: _index, 32: _action, 33: _update, 34: _source, 35: _many, 36: _body, 37: _input, 38: _section, 39: _header}.get(
        number, lambda *_: 'this number is not known to this tool')(script, line, error)


def _long(script, line, _):
    return f'the line has {len(script.line(line)):,} bytes, and 1,048,576 are the most: a document or a body of this length is not taken'


def _index(script, line, error):
    path, value = error.get('path', ''), script.index
    if path == '':
        if value == {}:
            return 'it is empty: line 1 is the index, as {"index":"web","mappings":{..}}; the searches of a file for _msearch come behind two empty lines'
        if value is not None:
            return 'line 1 is the index, a JSON object with the members index, mappings and settings'
        return 'line 1 is the index, and this is not JSON: ' + why_not_json(script.line(1))
    parts = [it.replace('~1', '/').replace('~0', '~') for it in path.split('/')[1:]]
    found = _at(value, parts)
    if path == '/index':
        if is_action(value):
            return f'line 1 must be the index line, and this is a bulk action: this file is for _bulk alone; {TOOL}'
        return 'the index has a name, a text of 1 to 255 bytes, as its member index'
    if len(parts) == 1 and isinstance(found, dict) and ('mappings' in found or 'settings' in found):
        return f'this is what GET /{parts[0]} answers: here the name is the member index, and mappings and settings stand beside it; {TOOL}'
    if len(parts) == 1:
        return f'the index line has index, mappings and settings, and no member {parts[0]}: leave it out'
    if path == '/mappings/dynamic':
        return 'fields are not made by themselves: dynamic is false or "strict", and each field stands in properties'
    if parts[0] == 'settings':
        return f'number_of_shards is a whole number from 1 to 1024, and not {found!r}; where it is given twice both are equal'
    if parts[-1] == 'type':
        reason = TYPES.get(found)
        words = f'{".".join(it for it in parts[2:-1] if it != "properties")}: the type {found!r} is not taken'
        return words + (f' ({reason})' if isinstance(reason, str) else '') + f'; {TOOL}'
    if parts[-1] == 'format' and _at(value, parts[:-1]).get('type') == 'date':
        return f'{path}: dates have one format here, strict_date_optional_time||epoch_millis, and not {found!r}; {TOOL}, and writes them as milliseconds'
    if parts[-1] == 'fields':
        return f'a field has no fields below it here; {TOOL}'
    if '.' in parts[-1]:
        return 'a name in a mapping has no dots: write objects in one another'
    return f'the member {parts[-1]} is not taken here; {TOOL}'


def _at(value, parts):
    for it in parts:
        if isinstance(value, dict) and it in value:
            value = value[it]
        elif isinstance(value, list) and it.isdigit() and int(it) < len(value):
            value = value[int(it)]
        else:
            return None
    return value


def _action(script, line, _):
    value, text = value_of(script.line(line)), script.line(line)
    if not text.strip():
        return 'it has blanks alone: the line that ends the bulk actions is empty'
    if value is None:
        return 'a bulk action is due, and this is not JSON: ' + why_not_json(text)
    if isinstance(value, dict) and '_source' in value:
        return f'this is a line of a dump (elasticdump, or a hit), and a bulk action is due; {TOOL}'
    if is_action(value):
        name, meta = next(iter(value.items()))
        index = script.index.get('index') if isinstance(script.index, dict) else None
        if meta.get('_index', index) not in (None, index):
            return f'the action is for the index {meta["_index"]}, and the script has {index}: one run has one index'
        if name == 'delete' and meta.get('_id') is None:
            return 'a delete names an _id'
        return 'one of its members breaks a rule: _id has 1 to 512 bytes; versions and pipelines are not taken'
    if is_body(value) or is_header(value):
        return 'a bulk action is due, and this looks like a header or a search: the empty line between the bulk actions and the searches is missing. ' \
               'A script without documents has two empty lines behind the index line'
    return 'a bulk action is due, as {"index":{"_id":"1"}}, with the document on the next line: this looks like a document without one'


def _update(script, line, _):
    return 'documents are written whole: write index with the whole document in the place of the update'


def _source(script, line, _):
    return 'the document of this action is missing: an empty line stands there, or the input ends'


def _many(script, line, _):
    return 'there are more than 1,048,576 bulk actions: tools/from-elasticsearch --split makes several scripts'


def _body(script, line, _):
    value = value_of(script.line(line))
    if is_body(value):
        return 'each search has two lines, a header and a body, and this body stands where a header is due: put a line {} before it'
    if isinstance(value, dict) and len(value) == 1:
        near = difflib.get_close_matches(next(iter(value)), ('persistent', 'transient'), 1, 0.7)
        if near:
            return f'this header has no body behind it. Is it meant as a settings line? Then its member is {near[0]}'
    words = 'this header has no body behind it'
    for entry in script.entries:
        words += _typo(entry)
    return words


def _typo(entry):
    if isinstance(entry.header, dict) and len(entry.header) == 1 and not is_header(entry.header):
        near = difflib.get_close_matches(next(iter(entry.header)), ('persistent', 'transient'), 1, 0.7)
        if near:
            return f'. Line {entry.number} was taken as a header: as a settings line its member is {near[0]}'
    return ''


def _input(script, line, _):
    return 'the input has more than 268,435,456 bytes: tools/from-elasticsearch --needed leaves out what no search names, --split makes several scripts'


def _section(script, line, _):
    if not script.lines:
        return 'there was no input: a script comes by <, as ./aggs < script'
    if line == 2 and script.line(2):
        if not script.line(2).strip():
            return 'line 2 has blanks alone: it must be empty'
        if isinstance(script.index, dict) and is_header(script.index) and 'mappings' not in script.index and is_body(value_of(script.line(2))):
            return f'line 2 must be empty: this is a file for _msearch alone, and its first header was taken as the index; {TOOL}'
        return 'line 2 must be empty: put an empty line between the index line and the bulk actions'
    return 'the input ends before the empty line behind the bulk actions: a script has an index line, an empty line, bulk actions, an empty line, searches'


def _header(script, line, _):
    text = script.line(line)
    before = [it for it in script.entries if it.number == line - 2]
    if before and before[0].body is not None and before[0].body.strip() in (b'{', b'['):
        return 'a header is due here: the body before is printed on several lines. Write each body on one line, as `python3 -m json.tool --compact` does'
    if not text.strip():
        return 'a header is due, and the line has blanks alone: leave it out'
    return 'a header is due, a JSON object on one line, as {}: ' + (why_not_json(text) if value_of(text) is None else 'this is JSON and no object')

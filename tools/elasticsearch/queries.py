"""Queries of Elasticsearch as queries of a script, where one matches the same rows; what has no equal is refused by name."""
import re

from elasticsearch import dates, exact
from elasticsearch.values import Refused, moment, value

EVERYTHING = {'match_all': {}}
NOTHING = {'bool': {'must_not': EVERYTHING}}
# Why each query that has no equal here has none.
ADVICE = {
    'prefix': 'words are compared whole: list the words in terms',
    'wildcard': 'words are compared whole: list the words in terms',
    'regexp': 'words are compared whole: list the words in terms',
    'fuzzy': 'words are compared whole: list the words in terms',
    'multi_match': 'full text; on keywords write a bool of term queries',
    'simple_query_string': 'full text; on keywords write a bool of term queries',
    'script': 'there are no scripts',
    'function_score': 'there are no scores; write its query alone',
    'geo_distance': 'there are no places',
    'geo_bounding_box': 'there are no places',
    'has_child': 'there are no joins',
    'has_parent': 'there are no joins',
}
# One clause FIELD:WORD of Lucene's language, with no sign that means something there.
CLAUSE = re.compile(r'^([A-Za-z0-9_@.]+):(?:"([A-Za-z0-9_ .-]+)"|([A-Za-z0-9_.][A-Za-z0-9_.-]*))$')


class Queries:
    """Reads queries; `search` is the search that they belong to: its fields, what it changed, the time `now`."""

    def __init__(self, search):
        self.search = search

    def query(self, query, at):
        if not isinstance(query, dict) or len(query) != 1:
            return query  # The program says what is wrong with it.
        name, form = next(iter(query.items()))
        at = f'{at}/{name}'
        read = getattr(self, '_' + name, None)
        if read is not None and isinstance(form, dict):
            return read(form, at)
        raise Refused(ADVICE.get(name, f'there is no query {name} here'), at)

    def _many(self, form, at):
        if isinstance(form, list):
            return [self.query(it, f'{at}/{place}') for place, it in enumerate(form)]
        return self.query(form, at)

    def _match_all(self, form, at):
        self._only(form, at, ())
        return {'match_all': {}}

    def _match_none(self, form, at):
        self.search.change(at, 'match_none is written as a bool that nothing matches')
        return NOTHING

    def _only(self, form, at, known):
        """Leaves `boost` and names of queries out, and refuses members that would change what matches."""
        for name in form:
            if name not in known and name not in ('boost', '_name'):
                raise Refused(f'{name} is not known here', at)
            if name == '_name':
                self.search.change(at, '_name is left out: no hit tells which query matched')

    def _one_field(self, form, at):
        """The one field of a query, with what stands there; its `boost` and name are left out."""
        names = [it for it in form if it not in ('boost', '_name')]
        if len(names) != 1:
            raise Refused('it names no field, or several', at)
        if '_name' in form:
            self.search.change(at, '_name is left out: no hit tells which query matched')
        return self.search.field(names[0], f'{at}/{names[0]}'), form[names[0]], f'{at}/{names[0]}'

    def _term(self, form, at):
        field, given, here = self._one_field(form, at)
        if isinstance(given, dict):
            if given.get('case_insensitive'):
                raise Refused('words are compared with their case (case_insensitive)', here)
            self._only({it: 0 for it in given if it != 'case_insensitive'}, here, ('value',))
            given = given.get('value')
        return self._equal(field, given, here)

    def _equal(self, field, given, at):
        if field.read == 'date' and isinstance(given, str) and self.search.now is None and given.startswith('now'):
            raise Refused(f'{given} depends on the time of the search: --now TIME says which', at)
        if field.read == 'date':
            least = self._at(at, moment, field, given, self.search.now)
            most = self._at(at, moment, field, given, self.search.now, None, 0, True)
            if least != most:
                self.search.change(at, 'a time that leaves parts open is the range of all that it stands for', field.kind == 'date')
                return {'range': {field.path: {'gte': least, 'lte': most}}}
        return {'term': {field.path: self._value(field, given, at)}}

    def _value(self, field, given, at, **more):
        found = self._at(at, value, field, given, self.search.now, **more)
        if exact.write(found) != exact.write(given):
            self.search.change(at, f'{exact.write(given)} is written as {exact.write(found)}')
        return found

    def _at(self, at, call, *words, **more):
        try:
            return call(*words, **more)
        except Refused as it:
            raise Refused(it.reason, at) from None

    def _terms(self, form, at):
        field, given, here = self._one_field(form, at)
        if not isinstance(given, list):
            raise Refused('its words stand in another index (a look-up of terms)', here)
        if field.read == 'date':
            ranges = [self._equal(field, it, f'{here}/{place}') for place, it in enumerate(given)]
            if any('range' in it for it in ranges):
                return {'bool': {'should': ranges}}
        return {'terms': {field.path: [self._value(field, it, f'{here}/{place}') for place, it in enumerate(given)]}}

    def _match(self, form, at):
        field, given, here = self._one_field(form, at)
        if isinstance(given, dict):
            for name in given:
                if name not in ('query', 'operator', 'boost', 'slop', 'zero_terms_query', 'lenient', '_name', 'auto_generate_synonyms_phrase_query'):
                    raise Refused(f'{name} changes what matches', here)
            given = given.get('query')
        self.search.change(at, f'on {field.path}, which has whole words and numbers, it is term')
        return self._equal(field, given, here)

    _match_phrase = _match

    def _constant_score(self, form, at):
        self._only(form, at, ('filter',))
        self.search.change(at, 'there are no scores: its filter is written alone')
        return self.query(form.get('filter'), f'{at}/filter')

    def _dis_max(self, form, at):
        self._only(form, at, ('queries', 'tie_breaker'))
        self.search.change(at, 'there are no scores: it is a bool whose should has its queries')
        return {'bool': {'should': self._many(form.get('queries'), f'{at}/queries')}}

    def _exists(self, form, at):
        self._only(form, at, ('field',))
        return {'exists': {'field': self.search.field(form.get('field'), f'{at}/field').path}}

    def _ids(self, form, at):
        self._only(form, at, ('values',))
        return {'ids': {'values': form.get('values')}}

    def _nested(self, form, at):
        self._only(form, at, ('path', 'query', 'score_mode', 'ignore_unmapped', 'inner_hits'))
        if 'inner_hits' in form:
            self.search.change(f'{at}/inner_hits', 'left out: no hits are returned')
        self.search.enter(form.get('path'))
        inner = self.query(form.get('query'), f'{at}/query')
        self.search.leave()
        return {'nested': {**{it: form[it] for it in ('path', 'score_mode', 'ignore_unmapped') if it in form}, 'query': inner}}

    def _bool(self, form, at):
        out = {}
        for name, given in form.items():
            here = f'{at}/{name}'
            if name in ('must', 'filter', 'should', 'must_not'):
                out[name] = self._many(given, here)
            elif name == 'minimum_should_match':
                out[name] = self._least(form, given, here)
            elif name == 'adjust_pure_negative':
                if given not in (True, 'true'):
                    raise Refused('a bool of must_not alone matches all others here', here)
                self.search.change(here, 'left out: it is so here')
            elif name not in ('boost', '_name'):
                raise Refused(f'{name} is not known here', at)
        return {'bool': out}

    def _least(self, form, given, at):
        should = form.get('should')
        count = len(should) if isinstance(should, list) else 1 if isinstance(should, dict) else 0
        found = exact.whole(given)
        if found is None:
            part = re.match(r'^\s*(-?)(\d{1,3})%\s*$', given) if isinstance(given, str) else None
            if not part:
                raise Refused('minimum_should_match is a whole number here', at)
            found = count * int(part.group(2)) // 100
            found = count - found if part.group(1) else found
        elif found < 0:
            found = max(0, count + found)
        has_more = any(it not in (None, [], {}) for it in (form.get('must'), form.get('filter')))
        if found == 0 and count and not has_more:
            found = 1  # A bool of should alone wants one of them, whatever stands here.
        if exact.write(found) != exact.write(given):
            self.search.change(at, f'{exact.write(given)} is written as {found}', exact.whole(given) == 0)
        return found

    def _range(self, form, at):
        field, given, here = self._one_field(form, at)
        if not isinstance(given, dict):
            return {'range': {field.path: given}}
        given, out = dict(given), {}
        pattern = given.pop('format', None)
        text = given.pop('time_zone', None)
        ahead = dates.zone(text)
        if ahead is None:
            raise Refused(f'the clock of {text} may be changed: times of such a zone are not reckoned here', here)
        if field.read != 'date' and (pattern or text):
            self.search.change(here, f'format and time_zone are left out: {field.path} has no dates')
        elif pattern or text:
            self.search.change(here, 'format and time_zone are left out: the bounds are milliseconds')
        if pattern and field.read == 'date' and not dates.is_read(pattern):
            raise Refused(f'dates of the format {pattern} are not read', here)
        if 'relation' in given:
            given.pop('relation')
            self.search.change(f'{here}/relation', f'left out: {field.path} has no ranges as values')
        for old, least, most in (('from', 'gte', 'gt'), ('to', 'lte', 'lt')):
            with_it = given.pop('include_lower' if old == 'from' else 'include_upper', True)
            if old in given:
                given[least if with_it in (True, 'true') else most] = given.pop(old)
                self.search.change(f'{here}/{old}', f'written as {least if with_it in (True, "true") else most}')
        for name, bound in given.items():
            if name in ('boost', '_name'):
                continue
            if name not in ('gt', 'gte', 'lt', 'lte'):
                raise Refused(f'{name} is not known here', here)
            if bound is not None:
                out[name] = self._value(field, bound, f'{here}/{name}', form=pattern, ahead=ahead, bound=name)
                if field.kind == 'date' and out[name] != self._at(f'{here}/{name}', value, field, bound, self.search.now, pattern, ahead):
                    self.search.other.append((f'{here}/{name}', f'{exact.write(bound)} stands for the end of what it names, and is taken for its beginning'))
        return {'range': {field.path: out}}

    def _query_string(self, form, at):
        """A text of Lucene's language, where it is `*` or clauses FIELD:WORD joined by AND."""
        text = form.get('query')
        others = [it for it in form if it not in ('query', 'analyze_wildcard', 'boost', 'time_zone', 'lenient', 'default_operator', 'allow_leading_wildcard')]
        if not isinstance(text, str) or others:
            raise Refused('Lucene queries of this form are not read', at)
        if text.strip() in ('*', '*:*'):
            self.search.change(at, f'{text.strip()} is match_all')
            return EVERYTHING
        clauses = []
        for part in re.split(r'\s+AND\s+', text.strip()):
            found = CLAUSE.match(part)
            if not found or part.rpartition(':')[2] in ('AND', 'OR', 'NOT'):
                raise Refused(f'the Lucene query {text} is more than fields with whole words, joined by AND', at)
            field = self.search.field(found.group(1), at)
            if field.read == 'date':
                raise Refused(f'the Lucene query {text} names a date', at)
            clauses.append(self._equal(field, found.group(2) or found.group(3), at))
        self.search.change(at, f'the Lucene query {text} is written as term')
        return clauses[0] if len(clauses) == 1 else {'bool': {'filter': clauses}}

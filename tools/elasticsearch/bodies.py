"""The bodies of searches, changed so far as their meaning stays, with a list of the changes; what would change a meaning is refused by name.

A body of which something is refused keeps the form that it has there, and the program refuses it by number. Where the program would take
it with another meaning, a member is put into it that is refused."""
from elasticsearch.aggregations import Aggregations
from elasticsearch.queries import Queries
from elasticsearch.values import Refused

# Members of a body that the program reads without effect.
FREE = ('size', 'from', 'track_total_hits', '_source', 'sort', 'timeout', 'fields', 'stored_fields', 'docvalue_fields', 'explain', 'version',
        'seq_no_primary_term', 'track_scores')
# Members that concern hits, scores or the course of a search, and no aggregation: they are left out.
LEFT = {
    'script_fields': 'no hits are returned',
    'highlight': 'no hits are returned',
    'rescore': 'no hits are returned',
    'collapse': 'no hits are returned',
    'search_after': 'no hits are returned',
    'indices_boost': 'there are no scores',
    'profile': 'the answer has no profile',
    'suggest': 'the answer has no suggestions',
    'ext': 'it has no effect on counts',
    'stats': 'it has no effect on counts',
    'pit': 'the documents of the script are what is searched',
}
# Members that would change what is counted.
CHANGING = {
    'post_filter': 'hits.total would count without it: put it into the query',
    'min_score': 'there are no scores',
    'slice': 'no part of the documents stands for all',
    'knn': 'there are no vectors',
    'retriever': 'there are no vectors',
    'sub_searches': 'there is one query',
    'rank': 'there are no scores',
}
# The mark of a body that the program would take with another meaning.
MARK = 'refused_by_from_elasticsearch'
HEADERS = ('index', 'preference', 'routing', 'search_type', 'ignore_unavailable', 'allow_no_indices', 'expand_wildcards', 'ignore_throttled',
           'request_cache', 'ccs_minimize_roundtrips', 'allow_partial_search_results', 'max_concurrent_shard_requests', 'pre_filter_shard_size',
           'batched_reduce_size', 'project_routing')


class Search:
    """One search, while its body is read: its changes and refusals, and where it stands among nested objects."""

    def __init__(self, mapping, now=None, documents=None, used=None):
        self.mapping, self.now, self.documents = mapping, now, documents
        self.used = used if used is not None else set()
        # What the program would take as it stands, with another meaning.
        self.other = []
        self.changes, self.refusals, self.contexts = [], [], ['']
        self.is_other = False
        self.queries, self.aggregations = Queries(self), Aggregations(self)

    def change(self, at, words, is_other=False):
        self.changes.append((at, words))
        if is_other:
            self.other.append((at, words))

    def refuse(self, at, reason):
        self.refusals.append((at, reason))

    def depth(self):
        return len(self.contexts)

    def enter(self, path):
        self.contexts.append(path)
        self.used.add(path)

    def leave(self):
        self.contexts.pop()

    def field(self, name, at):
        """The field of a name; a name that stands for another field is changed."""
        if not isinstance(name, str):
            raise Refused('no field is named', at)
        path, seen = name, 0
        while path in self.mapping.names and seen < 4:
            path, seen = self.mapping.names[path], seen + 1
        found = self.mapping.fields.get(path)
        if found is None:
            for left, reason in self.mapping.left.items():
                if path == left or path.startswith(left + '.'):
                    raise Refused(f'{name} is left out: {reason}', at)
            raise Refused(f'the mapping has no field {name}', at)
        if path != name:
            self.change(at, f'{name} is another name of {path}')
        if found.context in self.mapping.included and self.contexts[-1] != found.context:
            self.is_other = True
            self.other.append((at, 'it counts here too in Elasticsearch (include_in_parent, include_in_root)'))
            raise Refused(f'{name} counts here too in Elasticsearch (include_in_parent, include_in_root)', at)
        self.used.add(path)
        return found

    def body(self, body):
        """The body with the same meaning, so far as there is one."""
        if not isinstance(body, dict):
            return body
        out = {}
        for name, given in body.items():
            at = '/' + name
            try:
                if name in LEFT or (name == 'runtime_mappings' and not given):
                    self.change(at, 'left out: ' + LEFT.get(name, 'it is empty'))
                elif name == 'terminate_after' and (given == 0 or self.documents is not None and isinstance(given, int) and given >= self.documents):
                    self.change(at, 'left out: there are no more documents')
                elif name in CHANGING or name in ('runtime_mappings', 'terminate_after'):
                    raise Refused(CHANGING.get(name, {'runtime_mappings': 'its values are computed',
                                                      'terminate_after': 'it counts a part of the documents'}.get(name)), at)
                elif name == 'query':
                    out[name] = self.queries.query(given, at)
                elif name in ('aggs', 'aggregations'):
                    out[name] = self.aggregations.all(given, at)
                else:
                    out[name] = given
            except Refused as why:
                self.refuse(why.at or at, why.reason)
                out[name] = given
            del self.contexts[1:]
        if self.is_other:
            out[MARK] = self.refusals[-1][1]
        return out


def pairs(values):
    """Headers and bodies of a file of searches: pairs as `_msearch` has them, or bodies alone, which get an empty header."""
    def is_header(value):
        return isinstance(value, dict) and all(name in HEADERS for name in value)
    if len(values) % 2 == 0 and all(is_header(it) for it in values[::2]):
        return list(zip(values[::2], values[1::2]))
    return [({}, it) for it in values]


def header_of(header, body, index, search):
    """The header of a search, and what it asks for that only a body says here."""
    out = {name: given for name, given in header.items() if name not in ('routing', 'allow_partial_search_results')}
    if header.get('routing') is not None:
        search.refuse('header /routing', 'a search goes through all shards here')
        search.other.append(search.refusals[-1])
        body = {**body, MARK: 'routing'}
    names = header.get('index')
    names = names.split(',') if isinstance(names, str) else names or []
    if names and not any(_covers(it, index) for it in names):
        search.refuse('header /index', f'the script has the index {index}')
        search.other.append(search.refusals[-1])
        body = {**body, MARK: 'index'}
    if header.get('allow_partial_search_results') in (True, 'true') and isinstance(body, dict):
        body = {**body, 'allow_partial_search_results': True}
        search.change('header /allow_partial_search_results', 'it is a member of the body')
    return out, body


def _covers(pattern, index):
    """Whether a name with `*` covers an index."""
    first, *others = pattern.split('*')
    if not others:
        return pattern in (index, '_all')
    if not index.startswith(first):
        return False
    rest = index[len(first):]
    for it in others[:-1]:
        place = rest.find(it)
        if place < 0:
            return False
        rest = rest[place + len(it):]
    return rest.endswith(others[-1])

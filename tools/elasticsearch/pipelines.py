"""Pipelines of Elasticsearch as pipelines of a script, where they say the same of every answer; what says something else is refused.

Elasticsearch leaves a bucket without documents out where a metric is asked for (`gap_policy`), and runs a `bucket_sort` among the other
pipelines. Here such a bucket has the sum 0, and buckets are sorted and cut once all else is known."""
from elasticsearch import exact
from elasticsearch.values import Refused

PARENTS = ('cumulative_sum', 'derivative')
SIBLINGS = ('sum_bucket', 'min_bucket', 'max_bucket')
PIPELINES = (*PARENTS, *SIBLINGS, 'bucket_sort')
# Kinds whose buckets pipelines are about; those of the first two stand in the order of their keys.
BUCKETS = ('histogram', 'date_histogram', 'terms')
BESIDE = ('aggs', 'aggregations', 'meta')
GAPS = 'a bucket without documents is left out there, and counts as 0 here: ask for min_doc_count 1, or for gap_policy insert_zeros'
GAPS_OF_CHANGES = 'a bucket without documents has no change there, and counts as 0 here: ask for gap_policy insert_zeros'


def kind_of(agg):
    """The kind of an aggregation or a pipeline, and its members; nothing where it has no one kind."""
    kinds = [(name, form) for name, form in agg.items() if name not in BESIDE] if isinstance(agg, dict) else []
    return kinds[0] if len(kinds) == 1 and isinstance(kinds[0][1], dict) else (None, {})


def below(agg):
    children = agg.get('aggs', agg.get('aggregations')) if isinstance(agg, dict) else None
    return children if isinstance(children, dict) else {}


class Pipelines:
    """Reads pipelines; `search` is the search that they belong to."""

    def __init__(self, search):
        self.search = search

    def one(self, agg, at, name, beside, around):
        """The pipeline of this name among the aggregations beside it, within the aggregation around it."""
        out = {}
        for member, form in agg.items():
            here = f'{at}/{member}'
            if member == 'meta':
                self.search.change(here, 'left out: the answer does not repeat it')
            elif member == 'bucket_sort':
                out[member] = self._sort(form, here, around)
            elif member in PIPELINES:
                out[member] = self._value(member, form, here, name, beside, around)
            else:
                out[member] = form
        return out

    def _value(self, kind, form, at, name, beside, around):
        out, gaps = self._plain(form, at)
        if 'unit' in out:
            raise Refused('a change is from one bucket to the next, whatever its length', f'{at}/unit')
        path = out.get('buckets_path')
        if isinstance(path, list) and len(path) == 1:
            path = out['buckets_path'] = path[0]
            self.search.change(f'{at}/buckets_path', 'a list of one path is written as a text')
        if not isinstance(path, str):
            return out
        if kind in PARENTS:
            about, asked = around, path
            if kind_of(about)[0] not in BUCKETS[:2]:
                raise Refused('it stands directly below a histogram or a date_histogram', at)
            members = list(beside)
            if any(kind_of(beside[it])[0] == 'bucket_sort' for it in members[:members.index(name)]):
                self._another(at, 'a bucket_sort in front of it cuts buckets before it there, and after it here')
        else:
            first, _, asked = path.partition('>')
            about = beside.get(first)
            if kind_of(about)[0] not in BUCKETS:
                raise Refused('its path begins with terms, a histogram or a date_histogram beside it', f'{at}/buckets_path')
            if any(kind_of(it)[0] == 'bucket_sort' for it in below(about).values()):
                self._another(at, 'a bucket_sort below the aggregation of its path cuts buckets before it there, and after it here')
        metric = self._metric(about, asked, f'{at}/buckets_path')
        if kind in ('derivative', 'min_bucket', 'max_bucket'):
            self._check_gaps(metric, about, gaps, at, GAPS_OF_CHANGES if kind == 'derivative' else GAPS)
        return out

    def _sort(self, form, at, around):
        out, gaps = self._plain(form, at)
        if kind_of(around)[0] not in BUCKETS:
            raise Refused('it stands directly below terms, a histogram or a date_histogram', at)
        for name in ('from', 'size'):
            found = exact.whole(out[name]) if name in out else None
            if found is not None and exact.write(found) != exact.write(out[name]):
                self.search.change(f'{at}/{name}', f'{exact.write(out[name])} is written as {found}')
                out[name] = found
        given = out.get('sort')
        if given is None:
            return out
        orders = []
        for it in given if isinstance(given, list) else [given]:
            orders += [(it, 'asc')] if isinstance(it, str) else list(it.items()) if isinstance(it, dict) else [(None, it)]
        if any(name is None for name, _ in orders):
            return out
        metrics = [self._metric(around, name, f'{at}/sort') for name, _ in orders]
        for (name, _), metric in zip(orders, metrics):
            if name == '_key':
                raise Refused('buckets are sorted by values here, and by key by the order of their aggregation', f'{at}/sort')
            if metric in ('min', 'max') and '_count' not in metrics:
                self._another(f'{at}/sort', 'a bucket without a value is left out there, and stands last here')
            self._check_gaps(metric, around, gaps, f'{at}/sort', GAPS)
        out['sort'] = [{name: {'order': way.lower()} if isinstance(way, str) else way} for name, way in orders]
        if out['sort'] != given:
            self.search.change(f'{at}/sort', 'written as a list of a path and an order each')
        return out

    def _plain(self, form, at):
        """The members without those of no effect, and what is done with gaps."""
        out = dict(form)
        gaps = out.pop('gap_policy', 'skip')
        if 'gap_policy' in form:
            self.search.change(f'{at}/gap_policy', 'left out: there is one way here')
        if 'format' in out:
            del out['format']
            self.search.change(f'{at}/format', 'left out: the answer has no text of a value')
        return out, gaps

    def _metric(self, about, path, at):
        """The kind of the metric that a path names among the children of an aggregation; `_count` of the number of documents."""
        if path in ('_count', '_key'):
            return path
        metric = kind_of(below(about).get(path.removesuffix('.value')))[0]
        if metric == 'avg':
            raise Refused('an average is no whole number here', at)
        return metric

    def _check_gaps(self, metric, about, gaps, at, reason):
        """Refuses values that are others where buckets or values are wanting."""
        kind, form = kind_of(about)
        has_gaps = kind in BUCKETS[:2] and form.get('min_doc_count', 0) in (0, '0')
        if metric in ('sum', 'value_count') and has_gaps and gaps == 'skip':
            self._another(at, reason)
        if metric in ('min', 'max') and gaps == 'insert_zeros':
            self._another(at, 'no value is 0 there, and null here')

    def _another(self, at, reason):
        """Refuses what the program would take with another meaning."""
        self.search.is_other = True
        self.search.other.append((at, reason))
        raise Refused(reason, at)

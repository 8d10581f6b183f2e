"""Aggregations of Elasticsearch as aggregations of a script, where one has the same buckets and numbers; what has no equal is refused."""
import math
import re

from elasticsearch import dates, exact
from elasticsearch.pipelines import PIPELINES, Pipelines, kind_of
from elasticsearch.values import Refused

METRICS = ('sum', 'min', 'max', 'avg', 'value_count')
OTHER_PIPELINES = ('avg_bucket', 'bucket_count_ks_test', 'bucket_correlation', 'bucket_script', 'bucket_selector', 'change_point',
                   'cumulative_cardinality', 'extended_stats_bucket', 'inference', 'moving_avg', 'moving_fn', 'moving_percentiles', 'normalize',
                   'percentiles_bucket', 'serial_diff', 'stats_bucket')
# Why each kind that has no equal here has none, and what may take its place.
ADVICE = {
    **{it: 'there is no such pipeline: reckon it from the answer' for it in OTHER_PIPELINES},
    'cardinality': 'there are no estimates: a composite of the field with --scan has each value once, so its buckets are the exact number',
    'stats': 'write sum, min, max, avg and value_count beside one another',
    'extended_stats': 'squares are not summed here',
    'percentiles': 'there are no estimates: a histogram has the exact counts',
    'percentile_ranks': 'there are no estimates: a histogram has the exact counts',
    'median_absolute_deviation': 'there are no estimates',
    'auto_date_histogram': 'the interval is chosen by the answer: name one',
    'variable_width_histogram': 'the intervals are chosen by the answer: name one',
    'date_range': 'write filters with a range in each',
    'ip_range': 'there are no addresses',
    'top_hits': 'no hits are returned',
    'top_metrics': 'write max or min',
    'significant_terms': 'there are no scores',
    'significant_text': 'there are no scores',
    'rare_terms': 'there are no estimates: write terms with the order _count ascending and a size that holds all',
    'multi_terms': 'write a composite with one source for each field',
    'sampler': 'no part of the documents stands for all',
    'diversified_sampler': 'no part of the documents stands for all',
    'random_sampler': 'no part of the documents stands for all',
    'adjacency_matrix': 'write filters, one for each pair',
    'scripted_metric': 'there are no scripts',
    'weighted_avg': 'products of fields are not summed here',
}


# Why dates are not divided in some places, and what may take the place of it.
DIVIDED_DATES = 'write a date_histogram with a fixed_interval, which divides dates'
NO_SUCH_SOURCE = ('a composite has no source of intervals of dates: --dates millis makes them numbers of milliseconds, and what has one length is '
                  'written as a histogram')
# The members of a date_histogram that are read.
OF_DATE_HISTOGRAMS = ('field', 'fixed_interval', 'calendar_interval', 'interval', 'time_zone', 'offset', 'min_doc_count', 'order', 'missing',
                      'extended_bounds', 'hard_bounds', 'format', 'keyed')
# Names of UTC itself that the program takes, or that stand for no zone.
ZERO = ('UTC', 'Z')
# Formats whose texts are those of the program.
PRINTED = ('strict_date_optional_time', 'date_optional_time', 'strict_date_time', 'date_time')


class Aggregations:
    """Reads aggregations; `search` is the search that they belong to."""

    def __init__(self, search):
        self.search = search
        self.pipelines = Pipelines(search)

    def all(self, aggs, at, around=None):
        """The aggregations and pipelines of one object, within the aggregation around it."""
        if not isinstance(aggs, dict):
            return aggs
        out = {}
        for name, it in aggs.items():
            here = f'{at}/{name}'
            try:
                is_pipeline = kind_of(it)[0] in PIPELINES
                out[name] = self.pipelines.one(it, here, name, aggs, around) if is_pipeline else self.one(it, here)
            except Refused as why:
                self.search.refuse(why.at or f'{at}/{name}', why.reason)
                out[name] = it
        return out

    def one(self, agg, at):
        if not isinstance(agg, dict):
            return agg
        out, below, depth = {}, None, self.search.depth()
        for name, form in agg.items():
            here = f'{at}/{name}'
            if name in ('aggs', 'aggregations'):
                below = (name, form)
            elif name == 'meta':
                self.search.change(here, 'left out: the answer does not repeat it')
            else:
                read = getattr(self, '_' + name, None)
                if read is None or not isinstance(form, (dict, list)):
                    raise Refused(ADVICE.get(name, f'there is no aggregation {name} here'), here)
                kind, made = read(form, here)
                out[kind] = made
        if below is not None:
            for kind, form in out.items():
                self._check_order(form, below[1], f'{at}/{kind}/order')
            out[below[0]] = self.all(below[1], f'{at}/{below[0]}', agg)
        while self.search.depth() > depth:
            self.search.leave()
        return out

    def _check_order(self, form, children, at):
        """Refuses an order by a child that has no one whole number."""
        orders = form.get('order') if isinstance(form, dict) else None
        for order in orders if isinstance(orders, list) else [orders]:
            for name in order if isinstance(order, dict) else ():
                child = children.get(name.removesuffix('.value')) if isinstance(children, dict) else None
                if isinstance(child, dict) and 'avg' in child:
                    raise Refused('an average is no whole number here, and orders nothing', f'{at}/{name}')

    def _field(self, form, at):
        return self.search.field(form.get('field'), f'{at}/field')

    def _value(self, field, given, at, **more):
        return self.search.queries._value(field, given, at, **more)

    def _step(self, field, given, at):
        """An interval, an offset or a bound of a histogram, which is a number and no text."""
        found = exact.whole(given) if field.read == 'date' and not isinstance(given, str) else self._value(field, given, at)
        number = exact.whole(found)
        if number is not None and number != found:
            self.search.change(at, f'{exact.write(given)} is written as {number}')
        return found if number is None else number

    def _without(self, form, at, members):
        """The members without those that are of no effect or have the value that stands for their absence here: {name: (values, reason)}."""
        out = dict(form)
        for name, (values, reason) in members.items():
            if name in out and (values is None or out[name] in values):
                del out[name]
                self.search.change(f'{at}/{name}', f'left out: {reason}')
        return out

    def _wholes(self, form, at, names):
        for name in names:
            found = exact.whole(form[name]) if name in form else None
            if found is not None and (exact.write(found) != exact.write(form[name])):
                self.search.change(f'{at}/{name}', f'{exact.write(form[name])} is written as {found}')
                form[name] = found

    def _order(self, order, at):
        if isinstance(order, list):
            return [self._order(it, f'{at}/{place}') for place, it in enumerate(order)]
        if not isinstance(order, dict):
            return order
        out = {}
        for name, way in order.items():
            if name in ('_term', '_time'):
                self.search.change(f'{at}/{name}', 'written as _key')
                name = '_key'
            if '>' in name:
                raise Refused('an order by what stands deeper than a child', f'{at}/{name}')
            out[name] = way.lower() if isinstance(way, str) else way
        return out

    def _terms(self, form, at):
        field = self._field(form, at)
        out = self._without(form, at, {
            'shard_min_doc_count': ((0,), 'it is 0'),
            'format': (None, 'the answer has no text of numbers beside them'),
            'value_type': (None, 'the mapping says it'),
            'script': ((None,), 'it is null'),
        })
        if 'shard_min_doc_count' in out:
            raise Refused('what a shard leaves out by it can not be told', f'{at}/shard_min_doc_count')
        self._wholes(out, at, ('size', 'shard_size', 'min_doc_count'))
        if out.get('min_doc_count') == 0:
            raise Refused('terms without documents are no buckets: min_doc_count is at least 1', f'{at}/min_doc_count')
        out['field'] = field.path
        for name in ('include', 'exclude'):
            if isinstance(out.get(name), str) and re.fullmatch(r'[A-Za-z0-9_ -]+', out[name]):
                self.search.change(f'{at}/{name}', 'an expression of letters alone is a list of one word')
                out[name] = [out[name]]
            if name in out and not isinstance(out[name], list):
                raise Refused('a list of words stands here, and no expression and no partition', f'{at}/{name}')
            if name in out:
                out[name] = [self._value(field, it, f'{at}/{name}/{place}') for place, it in enumerate(out[name])]
        self._put_missing(field, out, at)
        if 'order' in out:
            out['order'] = self._order(out['order'], f'{at}/order')
        return 'terms', out

    def _put_missing(self, field, out, at):
        if out.get('missing') is not None:
            out['missing'] = self._value(field, out['missing'], f'{at}/missing')

    def _metric(self, name, form, at):
        if 'script' in form:
            raise Refused('there are no scripts', f'{at}/script')
        field = self._field(form, at)
        if field.kind == 'date' and name in ('sum', 'avg'):
            raise Refused('dates are not summed: --dates millis makes them numbers of milliseconds', at)
        out = self._without(form, at, {'format': (None, 'the answer has no text beside the number'), 'value_type': (None, 'the mapping says it')})
        out['field'] = field.path
        self._put_missing(field, out, at)
        if field.scale != 1 and name != 'value_count':
            self.search.change(at, f'answered in {field.scale}ths')
        return name, out

    def _histogram(self, form, at):
        field = self._field(form, at)
        if field.kind == 'date':
            raise Refused(DIVIDED_DATES, at)
        out = self._without(form, at, {'format': (None, 'the answer has no text of keys'), 'offset': ((0, exact.Number('0.0'), '0'), 'it is 0')})
        out['field'] = field.path
        for name in ('interval', 'offset'):
            if name in out:
                out[name] = self._step(field, out[name], f'{at}/{name}')
        if 'offset' in out and isinstance(out.get('interval'), int) and isinstance(out['offset'], int) and out['interval'] > 0:
            moved = out['offset'] % out['interval']
            if moved != out['offset']:
                self.search.change(f'{at}/offset', f'{out["offset"]} is written as {moved}: the same buckets')
                out['offset'] = moved
        for name in ('extended_bounds', 'hard_bounds'):
            if isinstance(out.get(name), dict):
                out[name] = {it: self._step(field, bound, f'{at}/{name}/{it}') for it, bound in out[name].items() if bound is not None}
        self._wholes(out, at, ('min_doc_count',))
        self._put_missing(field, out, at)
        if 'order' in out:
            out['order'] = self._order(out['order'], f'{at}/order')
        if field.scale != 1:
            self.search.change(at, f'keys in {field.scale}ths')
        return 'histogram', out

    def _steps(self, form, at):
        """The interval of a date_histogram in milliseconds and where its steps begin, where all its buckets have one length."""
        fixed = form.get('fixed_interval', form.get('interval') if dates.span(form.get('interval')) else None)
        calendar = form.get('calendar_interval', form.get('interval') if fixed is None else None)
        ahead = dates.zone(form.get('time_zone'))
        if ahead is None:
            raise Refused(f'the clock of {form["time_zone"]} may be changed, so its buckets have no one length', f'{at}/time_zone')
        length = dates.span(fixed) if fixed is not None else dates.CALENDAR.get(calendar)
        if not length or length < 0:
            raise Refused(f'buckets of {exact.write(fixed if calendar is None else calendar)} have no one length', at)
        begin = dates.MONDAY if calendar in ('week', '1w') else 0
        moved = form.get('offset', 0)
        moved = moved if isinstance(moved, int) else dates.span(moved)
        if moved is None:
            raise Refused('an offset in a form that is not read', f'{at}/offset')
        return length, (begin - ahead + moved) % length

    def _date_histogram(self, form, at):
        field = self._field(form, at)
        if field.read != 'date':
            raise Refused(f'{field.path} has no dates', f'{at}/field')
        for name in form:
            if name not in OF_DATE_HISTOGRAMS:
                raise Refused(f'{name} has no equal', f'{at}/{name}')
        if field.kind == 'date':
            return 'date_histogram', self._dated(field, form, at)
        return 'histogram', self._in_millis(field, form, at)

    def _dated(self, field, form, at):
        """A date_histogram over dates that stay dates."""
        ahead = self._ahead(form, at)
        out = {'field': field.path, **self._period(form, at), **self._zone(form, ahead, at)}
        self._no_offset(form, at)
        self._no_format(field, form, at)
        if 'keyed' in form:
            out['keyed'] = form['keyed']
        for name in ('extended_bounds', 'hard_bounds'):
            if name in form:
                out[name] = self._bounds(field, form, form[name], f'{at}/{name}', ahead)
        if isinstance(out.get('hard_bounds'), dict) and 'max' in out['hard_bounds']:
            self.search.change(f'{at}/hard_bounds', 'a bucket whose key is the upper bound itself is there too')
        self._put_counts(field, form, out, at, ahead)
        return out

    def _zone(self, form, ahead, at):
        given = form.get('time_zone')
        if given is None:
            return {}
        written = given if given in ZERO else dates.offset(ahead)
        if written != given:
            self.search.change(f'{at}/time_zone', f'{given} is written as {written}')
        return {'time_zone': written}

    def _put_counts(self, field, form, out, at, ahead):
        """`min_doc_count`, `missing` and `order` of a date_histogram."""
        if 'min_doc_count' in form:
            out['min_doc_count'] = form['min_doc_count']
            self._wholes(out, at, ('min_doc_count',))
        if form.get('missing') is not None:
            out['missing'] = self._moment(field, form, form['missing'], f'{at}/missing', ahead)
        if 'order' in form:
            out['order'] = self._order(form['order'], f'{at}/order')

    def _ahead(self, form, at):
        """By how many milliseconds the zone of a date_histogram is ahead of UTC."""
        text = form.get('time_zone')
        ahead = dates.zone(text)
        if ahead is None:
            raise Refused(f'the clock of {exact.write(text)} may be changed, so it is no offset: ask in UTC, or at the offset of the time that '
                          'is meant, as +01:00', f'{at}/time_zone')
        if dates.offset(ahead) is None:
            raise Refused('an offset is at most 18 hours', f'{at}/time_zone')
        return ahead

    def _period(self, form, at):
        """The interval of a date_histogram, which an older body has as `interval`: of the calendar, or of one length."""
        named = [it for it in ('calendar_interval', 'fixed_interval', 'interval') if form.get(it) is not None]
        if len(named) != 1:
            raise Refused('it has one interval, calendar_interval or fixed_interval', at)
        name, given = named[0], form[named[0]]
        if name != 'fixed_interval' and given in dates.PERIODS:
            made = {'calendar_interval': given}
        elif name != 'fixed_interval' and given in ('second', '1s'):
            made = {'fixed_interval': '1s'}
        else:
            length = None if name == 'calendar_interval' else dates.fixed(given)
            if length is None:
                raise Refused(f'an interval of {exact.write(given)} is not known', f'{at}/{name}')
            made = {'fixed_interval': length}
        if made != {name: given}:
            self.search.change(f'{at}/{name}', f'{exact.write(given)} is written as {exact.write(made)}')
        return made

    def _no_offset(self, form, at):
        """An offset that moves nothing is left out."""
        given = form.get('offset')
        if given is None:
            return
        if (given if isinstance(given, int) else dates.span(given)) != 0:
            raise Refused('intervals begin where the calendar or 1970 has them: there is no offset', f'{at}/offset')
        self.search.change(f'{at}/offset', 'left out: it is 0')

    def _no_format(self, field, form, at):
        """The format of keys is left out; the names of keyed buckets are texts of the program's own."""
        given = form.get('format')
        if given is not None and not isinstance(given, str):
            raise Refused('a format is a text', f'{at}/format')
        if given is not None and form.get('keyed') and given.split('||')[0] not in PRINTED:
            raise Refused('the names of its buckets are texts of one form, as 2024-03-01T00:00:00.000Z', f'{at}/format')
        if given is not None:
            self.search.change(f'{at}/format', 'left out: key_as_string has one form, as 2024-03-01T00:00:00.000Z')
        elif form.get('keyed') and (field.form or PRINTED[0]).split('||')[0] not in PRINTED:
            self.search.change(f'{at}/keyed', 'the names of its buckets are texts of one form, as 2024-03-01T00:00:00.000Z')

    def _bounds(self, field, form, bounds, at, ahead):
        """Bounds of a date_histogram: a number is one of milliseconds, whatever its format."""
        if not isinstance(bounds, dict):
            return bounds
        out = {name: self._moment(field, form, bound, f'{at}/{name}', ahead) if isinstance(bound, str) else bound
               for name, bound in bounds.items() if bound is not None}
        self._wholes(out, at, out)
        return out

    def _moment(self, field, form, given, at, ahead):
        """A time that a date_histogram names: a text is read by its format, and in its zone."""
        found = self._value(field, given, at, form=form.get('format'), ahead=ahead)
        taken = dates.millis(given) if isinstance(given, str) and field.kind == 'date' and form.get('format') is None else None
        if taken not in (None, found):
            self.search.other.append((at, f'{given} is a time in the zone of the aggregation, and is taken for one in UTC'))
        return found

    def _in_millis(self, field, form, at):
        """A date_histogram over dates that are numbers of milliseconds, as a histogram."""
        if 'hard_bounds' in form:
            raise Refused('hard_bounds has no equal', f'{at}/hard_bounds')
        if form.get('keyed'):
            raise Refused('its names are texts of dates', f'{at}/keyed')
        length, begin = self._steps(form, at)
        ahead = dates.zone(form.get('time_zone'))
        out = {'field': field.path, 'interval': length, **({'offset': begin} if begin else {})}
        self._put_counts(field, form, out, at, ahead)
        if 'extended_bounds' in form:
            out['extended_bounds'] = self._bounds(field, form, form['extended_bounds'], f'{at}/extended_bounds', ahead)
        self.search.change(at, f'written as a histogram of {length} milliseconds: the same buckets, without key_as_string')
        return out

    def _range(self, form, at):
        """Ranges are filters: the same documents in each, in the same order."""
        field = self._field(form, at)
        for name in form:
            if name not in ('field', 'ranges', 'keyed', 'format'):
                raise Refused(f'{name} has no equal', f'{at}/{name}')
        if field.read not in ('whole', 'scaled') or not isinstance(form.get('ranges'), list):
            raise Refused('ranges of this field have no equal', at)
        made = []
        for place, it in enumerate(form['ranges']):
            here = f'{at}/ranges/{place}'
            ends = [exact.decimal(it.get(name)) for name in ('from', 'to')]
            bounds = {name: self._value(field, it[end], f'{here}/{end}', bound=name)
                      for name, end in (('gte', 'from'), ('lt', 'to')) if it.get(end) is not None}
            query = {'range': {field.path: bounds}} if bounds else {'exists': {'field': field.path}}
            name = it.get('key', '-'.join('*' if end is None else _double(end) for end in ends))
            made.append((-math.inf if ends[0] is None else ends[0], math.inf if ends[1] is None else ends[1], place, name, query))
        made.sort(key=lambda it: it[:3])
        names = [it[3] for it in made]
        if form.get('keyed') and len(set(names)) < len(names):
            raise Refused('two ranges have one name', at)
        left = 'from and to' if form.get('keyed') else 'key, from and to'
        self.search.change(at, f'written as filters: the same counts, {"by the same names" if form.get("keyed") else "in the same order"}, without {left}')
        return 'filters', {'filters': {it[3]: it[4] for it in made} if form.get('keyed') else [it[4] for it in made]}

    def _filters(self, form, at):
        out = self._without(form, at, {'keyed': ((True,), 'it is so here')})
        if 'keyed' in out:
            raise Refused('named filters are an object here', f'{at}/keyed')
        if out.get('other_bucket') is False and 'other_bucket_key' in out:
            self.search.change(f'{at}/other_bucket_key', 'left out: other_bucket is false, and here the name alone asks for it', True)
            del out['other_bucket_key']
        given = out.get('filters')
        if isinstance(given, list):
            out['filters'] = [self.search.queries.query(it, f'{at}/filters/{place}') for place, it in enumerate(given)]
        elif isinstance(given, dict):
            out['filters'] = {name: self.search.queries.query(it, f'{at}/filters/{name}') for name, it in given.items()}
        return 'filters', out

    def _filter(self, form, at):
        return 'filter', self.search.queries.query(form, at)

    def _missing(self, form, at):
        out = dict(form)
        out['field'] = self._field(form, at).path
        return 'missing', out

    def _global(self, form, at):
        return 'global', form

    def _nested(self, form, at):
        self.search.enter(form.get('path'))
        return 'nested', form

    def _reverse_nested(self, form, at):
        self.search.enter(form.get('path', ''))
        return 'reverse_nested', form

    def _composite(self, form, at):
        out = dict(form)
        self._wholes(out, at, ('size',))
        if out.get('after', 0) is None or out.get('after') == {}:
            self.search.change(f'{at}/after', 'left out: the first page')
            del out['after']
        fields = {}
        if isinstance(out.get('sources'), list):
            out['sources'] = [self._source(it, f'{at}/sources/{place}', fields) for place, it in enumerate(out['sources'])]
        if isinstance(out.get('after'), dict):
            for name, given in out['after'].items():
                if given is None and not fields.get(name, (None, True))[1]:
                    raise Refused('null is a key only with missing_bucket', f'{at}/after/{name}')
            out['after'] = {name: given if given is None or name not in fields else self._value(fields[name][0], given, f'{at}/after/{name}')
                            for name, given in out['after'].items()}
        return 'composite', out

    def _source(self, source, at, fields):
        if not isinstance(source, dict) or len(source) != 1:
            return source
        name, kinds = next(iter(source.items()))
        if not isinstance(kinds, dict) or len(kinds) != 1:
            return source
        kind, form = next(iter(kinds.items()))
        here = f'{at}/{name}/{kind}'
        if not isinstance(form, dict) or kind not in ('terms', 'histogram', 'date_histogram'):
            raise Refused(f'there is no source {kind}', here)
        field = self._field(form, here)
        out = dict(form)
        default = 'last' if str(out.get('order', 'asc')).lower() == 'desc' else 'first'
        if out.get('missing_order') in ('default', default):
            self.search.change(f'{here}/missing_order', 'left out: null stands there')
            del out['missing_order']
        if 'missing_order' in out:
            raise Refused('null stands first ascending, and last descending', f'{here}/missing_order')
        if isinstance(out.get('order'), str):
            out['order'] = out['order'].lower()
        if kind != 'terms' and field.kind == 'date':
            raise Refused(NO_SUCH_SOURCE, here)
        if kind == 'date_histogram':
            if field.read != 'date':
                raise Refused(f'{field.path} has no dates', f'{here}/field')
            if out.get('format') is not None:
                raise Refused('its keys are texts of dates', f'{here}/format')
            length, begin = self._steps(out, here)
            if begin:
                raise Refused('a source begins its steps at 0', here)
            out = {it: out[it] for it in ('order', 'missing_bucket') if it in out}
            out['interval'] = length
            kind = 'histogram'
            self.search.change(here, f'written as a histogram of {length} milliseconds: the same keys')
        elif kind == 'histogram':
            out = self._without(out, here, {'format': (None, 'the answer has no text of keys')})
            out['interval'] = self._step(field, out.get('interval'), f'{here}/interval')
        else:
            out = self._without(out, here, {'format': (None, 'the answer has no text of keys'), 'value_type': (None, 'the mapping says it')})
        out['field'] = field.path
        fields[name] = (field, out.get('missing_bucket') in (True, 'true'))
        return {name: {kind: out}}


for _name in METRICS:
    setattr(Aggregations, '_' + _name, lambda self, form, at, name=_name: self._metric(name, form, at))


def _double(number):
    """A number as Java prints a double."""
    found = float(number)
    if found == 0 or 1e-3 <= abs(found) < 1e7:
        return repr(found)
    digits, _, exponent = f'{found:.16e}'.partition('e')
    shortest = repr(found).partition('e')[0].replace('.', '').lstrip('-').rstrip('0')
    shortest = shortest.lstrip('0').split('e')[0] or digits
    return f'{"-" if found < 0 else ""}{shortest[0]}.{shortest[1:] or "0"}E{int(exponent)}'

"""Values that a search names, for the field that they are of."""
import math
from decimal import Decimal

from elasticsearch import dates, exact


class Refused(Exception):
    """What a search asks for has no equal here; the reason in words, and where."""

    def __init__(self, reason, at=None):
        super().__init__(reason)
        self.reason, self.at = reason, at


# How a bound between two whole numbers becomes one of them: the same rows pass.
ROUND = {'gte': math.ceil, 'lt': math.ceil, 'gt': math.floor, 'lte': math.floor}


def value(field, given, now=None, form=None, ahead=0, bound=None):
    """The value of a field, for a search; `bound` is the name of a bound of `range`, by which what lies between two values is rounded."""
    if field.read in ('whole', 'scaled'):
        return _number(field, given, bound)
    if field.read == 'date':
        found = moment(field, given, now, form, ahead, bound in ('gt', 'lte'))
        return given if found is None else found
    if field.read == 'keyword' and isinstance(given, exact.Number):
        return given.text
    return given


def _number(field, given, bound):
    if isinstance(given, bool) or given is None:
        return given
    found = exact.decimal(given)
    if found is None:
        raise Refused(f'{exact.write(given)} is no number, and {field.path} has whole numbers')
    above, below = exact.ratio(found)
    product, rest = divmod(above * field.scale, below)
    if not rest:
        return given if field.scale == 1 and isinstance(given, str) and given == str(product) else product
    if bound is None:
        raise Refused(f'{exact.write(given)} lies between two values of {field.path}')
    return ROUND[bound](Decimal(product) + Decimal('0.5'))


def moment(field, given, now=None, form=None, ahead=0, is_up=False):
    """The milliseconds of a date that a search names."""
    if isinstance(given, bool) or given is None:
        return given
    text = given.text if isinstance(given, exact.Number) else given
    if isinstance(text, str) and (text.startswith('now') or '||' in text):
        if text.startswith('now') and now is None:
            raise Refused(f'{text} depends on the time of the search: --now TIME says which')
        found = dates.reckon(text, now, form or field.form, ahead, is_up)
    else:
        found = dates.millis(text, form or field.form, ahead, is_up)
    if found is None:
        raise Refused(f'{exact.write(given)} is a date in a form that is not read')
    return found

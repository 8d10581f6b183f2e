"""JSON whose numbers stay what they are: whole numbers as `int`, all others as the text that stands there."""
import json
from decimal import Decimal, InvalidOperation

# A whole number with more digits than this is no number of a field, and stays a text too.
MOST_DIGITS = 40


class Number:
    """A JSON number that is not plainly whole: a fraction, an exponent, a minus zero or very many digits."""

    __slots__ = ('text',)

    def __init__(self, text):
        self.text = text

    def __eq__(self, other):
        return isinstance(other, Number) and self.text == other.text

    def __hash__(self):
        return hash(self.text)

    def __repr__(self):
        return self.text


def _whole(text):
    return int(text) if len(text) <= MOST_DIGITS and text != '-0' else Number(text)


def _refuse(text):
    raise ValueError(f'{text} is no JSON')


_DECODER = json.JSONDecoder(parse_float=Number, parse_int=_whole, parse_constant=_refuse)


def read(text):
    """The value of a JSON text."""
    return _DECODER.decode(text)


def read_all(text):
    """The values of a text that has JSON values behind one another, on one line or on many."""
    values, at, end = [], 0, len(text)
    while True:
        while at < end and text[at] in ' \t\r\n':
            at += 1
        if at == end:
            return values
        value, at = _DECODER.raw_decode(text, at)
        values.append(value)


def _unknown(value):
    raise TypeError(value)


_FAST = json.JSONEncoder(separators=(',', ':'), ensure_ascii=False, default=_unknown)
_ESCAPED = json.JSONEncoder(separators=(',', ':'), ensure_ascii=True, default=_unknown)


def _slow(value, encoder):
    if isinstance(value, Number):
        return value.text
    if isinstance(value, dict):
        return '{' + ','.join(encoder.encode(str(name)) + ':' + _slow(it, encoder) for name, it in value.items()) + '}'
    if isinstance(value, (list, tuple)):
        return '[' + ','.join(_slow(it, encoder) for it in value) + ']'
    return encoder.encode(value)


def write(value):
    """The JSON text of a value, on one line, with each number as it was read."""
    for encoder in (_FAST, _ESCAPED):
        try:
            text = encoder.encode(value)
        except TypeError:
            text = _slow(value, encoder)
        # Half of a surrogate pair has no bytes of its own: it stays the escape that it was.
        if encoder is _ESCAPED or text.isascii() or not any('\ud800' <= it <= '\udfff' for it in text):
            return text
    raise AssertionError


def decimal(value):
    """The exact value of a number or of a text that is one; none where it isn't, or is out of all bounds."""
    if isinstance(value, bool) or value is None:
        return None
    if isinstance(value, int):
        return Decimal(value)
    text = value.text if isinstance(value, Number) else value
    if not isinstance(text, str) or len(text) > 200 or not text.isascii() or '_' in text or text != text.strip():
        return None
    try:
        found = Decimal(text)
    except InvalidOperation:
        return None
    return found if found.is_finite() and abs(found.adjusted()) <= 60 else None


def whole(value):
    """The whole number that a number or a text is, whatever its form (10.0, 1e3, "7"); none where it is none."""
    if isinstance(value, int) and not isinstance(value, bool):
        return value
    found = decimal(value)
    return int(found) if found is not None and found == found.to_integral_value() else None


def ratio(number):
    """A decimal as two whole numbers."""
    return number.as_integer_ratio()

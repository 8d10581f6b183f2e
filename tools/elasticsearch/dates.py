"""Dates of Elasticsearch as milliseconds since 1970, by whole numbers alone.

A text that leaves out a part of its time stands for the first millisecond of what it names, and where a bound is rounded up (`gt` and
`lte`) for the last one: `2024-03-01` is then 23:59:59.999. Digits behind the third of a second are cut, as a field of type `date` does."""
import datetime
import re

EPOCH = datetime.date(1970, 1, 1).toordinal()
DAY = 86_400_000
UNITS = {'ms': 1, 's': 1_000, 'm': 60_000, 'h': 3_600_000, 'd': DAY}
# Calendar units that have one length where no clock is changed.
CALENDAR = {'minute': 60_000, '1m': 60_000, 'hour': 3_600_000, '1h': 3_600_000, 'day': DAY, '1d': DAY, 'week': 7 * DAY, '1w': 7 * DAY}
# The Monday that weeks are counted from.
MONDAY = 4 * DAY
# The intervals of the calendar that a date_histogram of a script takes.
PERIODS = ('minute', '1m', 'hour', '1h', 'day', '1d', 'week', '1w', 'month', '1M', 'quarter', '1q', 'year', '1y')
# The most of a unit, and the farthest offset, that it takes.
MOST_AMOUNT, MOST_OFFSET = 2_147_483_647, 18 * 3_600_000
ZONES = {'UTC': 0, 'Z': 0, 'z': 0, 'GMT': 0, 'Etc/UTC': 0, 'Etc/GMT': 0, 'Zulu': 0, 'UCT': 0}
# The formats whose texts are read as ISO 8601.
ISO = re.compile(r'^(strict_)?date_optional_time(_nanos)?$|^iso8601$|^(strict_)?(date|date_time|date_time_no_millis|date_hour_minute_second'
                 r'(_millis|_fraction)?|date_hour_minute|year|year_month|year_month_day)$')
ISO_TEXT = re.compile(r'^(\d{4})(?:-(\d\d?)(?:-(\d\d?)(?:T(\d\d?)(?::(\d\d)(?::(\d\d)(?:[.,](\d{1,9}))?)?)?)?)?)?'
                      r'(Z|z|[+-]\d\d(?::?\d\d)?)?$')
LETTERS = {'y': r'(?P<y>\d{4})', 'u': r'(?P<y>\d{4})', 'M': r'(?P<M>\d\d)', 'd': r'(?P<d>\d\d)', 'H': r'(?P<H>\d\d)',
           'm': r'(?P<m>\d\d)', 's': r'(?P<s>\d\d)', 'S': r'(?P<S>\d{1,9})', 'Z': r'(?P<Z>Z|[+-]\d\d:?\d\d)', 'X': r'(?P<Z>Z|[+-]\d\d:?\d\d)'}
DEFAULT = 'strict_date_optional_time||epoch_millis'


def zone(text):
    """The milliseconds by which a zone is ahead of UTC; none for one whose clock may be changed."""
    if text is None:
        return 0
    if isinstance(text, str) and text in ZONES:
        return ZONES[text]
    found = re.match(r'^(?:UTC|GMT)?([+-])(\d\d?)(?::?([0-5]\d))?$', text) if isinstance(text, str) else None
    if not found:
        return None
    sign, hours, minutes = found.groups()
    length = int(hours) * 3_600_000 + int(minutes or 0) * 60_000
    return length if sign == '+' else -length


def span(text):
    """The milliseconds of a text such as `3h`; none for others, and for units that have no one length."""
    found = re.match(r'^([+-]?\d+)(ms|s|m|h|d)$', text) if isinstance(text, str) else None
    return int(found.group(1)) * UNITS[found.group(2)] if found else None


def offset(ahead):
    """The offset of a zone as a date_histogram takes it, as `+05:30`; none where it is too far from UTC or no whole number of minutes."""
    minutes, rest = divmod(abs(ahead), 60_000)
    if rest or abs(ahead) > MOST_OFFSET:
        return None
    return f'{"-" if ahead < 0 else "+"}{minutes // 60:02}:{minutes % 60:02}' if ahead else 'UTC'


def fixed(given):
    """An interval of one length as a date_histogram takes it, as `36h`; none for others. A number is one of milliseconds."""
    length = span(f'{given}ms' if isinstance(given, int) and not isinstance(given, bool) else given)
    if not length or length < 0:
        return None
    unit = re.search(r'[a-z]+$', f'{given}ms' if isinstance(given, int) else given).group()
    for it in (unit, *(it for it in UNITS if UNITS[it] > UNITS[unit])):
        if length % UNITS[it] == 0 and length // UNITS[it] <= MOST_AMOUNT:
            return f'{length // UNITS[it]}{it}'
    return None


def _millis(parts, ahead, is_up):
    year, month, day, hour, minute, second, fraction = parts
    given = sum(it is not None for it in (hour, minute, second, fraction))
    try:
        days = datetime.date(int(year), int(month or 1), int(day or 1)).toordinal() - EPOCH
    except ValueError:
        return None
    if int(hour or 0) > 24 or int(minute or 0) > 59 or int(second or 0) > 59:
        return None
    if int(hour or 0) == 24 and (int(minute or 0) or int(second or 0) or int(fraction or 0)):
        return None
    at = days * DAY + int(hour or 0) * 3_600_000 + int(minute or 0) * 60_000 + int(second or 0) * 1_000
    at += int((fraction or '0').ljust(3, '0')[:3])
    # The length of what the text leaves open, by the number of parts of the time that it has.
    if is_up:
        at += (DAY, 3_600_000, 60_000, 1_000, 1)[given] - 1
    return at - ahead


def _iso(text, ahead, is_up):
    found = ISO_TEXT.match(text)
    if not found:
        return None
    given = found.group(8)
    return _millis(found.groups()[:7], ahead if given is None else zone(given), is_up)


def _pattern(pattern):
    """The expression of a pattern such as `yyyy-MM-dd HH:mm:ss`; none where it has a letter that is not read here."""
    out, at = '', 0
    while at < len(pattern):
        letter = pattern[at]
        if letter == "'":
            end = pattern.find("'", at + 1)
            if end < 0:
                return None
            out, at = out + re.escape(pattern[at + 1:end]), end + 1
        elif letter.isalpha():
            length = len(pattern[at:]) - len(pattern[at:].lstrip(letter))
            if letter not in LETTERS or LETTERS[letter] in out or (letter in 'yu' and length not in (1, 4)) or (letter in 'MdHms' and length != 2):
                return None
            out, at = out + LETTERS[letter], at + length
        else:
            out, at = out + re.escape(letter), at + 1
    return out


def is_read(form):
    """Whether all forms of a format are read here."""
    return all(it in ('epoch_millis', 'epoch_second') or ISO.match(it) or _pattern(it) is not None for it in (form or DEFAULT).split('||'))


def millis(value, form=None, ahead=0, is_up=False):
    """The milliseconds of a date, by the first of its formats that reads it; none where none does."""
    if isinstance(value, bool):
        return None
    text = str(value)
    for it in (form or DEFAULT).split('||'):
        if it in ('epoch_millis', 'epoch_second'):
            # A number may have a fraction here: what is behind the last whole millisecond is cut.
            found = re.match(r'^(-?\d{1,17})(?:\.(\d+))?$', text)
            if found and it == 'epoch_millis' and not (found.group(2) or '').strip('0'):
                return int(found.group(1))
            if found and it == 'epoch_second' and not (found.group(2) or '')[3:].strip('0'):
                part = int((found.group(2) or '0').ljust(3, '0')[:3])
                return int(found.group(1)) * 1_000 + (-part if text.startswith('-') else part) + (999 if is_up and not found.group(2) else 0)
        elif ISO.match(it):
            found = _iso(text, ahead, is_up) if isinstance(value, str) or len(text) == 4 else None
            if found is not None:
                return found
        elif isinstance(value, str):
            found = re.match('^' + (_pattern(it) or '(?!)') + '$', text)
            if found:
                part = found.groupdict()
                given = part.get('Z')
                return _millis([part.get(name) for name in 'yMdHmsS'], ahead if given is None else zone(given), is_up)
    return None


def _floor(at, unit, ahead):
    """The first millisecond of the unit around a time, in a zone."""
    at += ahead
    if unit in UNITS or unit == 'H':
        length = UNITS['h' if unit == 'H' else unit]
        return at // length * length - ahead
    day = datetime.date.fromordinal(at // DAY + EPOCH)
    if unit == 'w':
        return (at // DAY - day.weekday()) * DAY - ahead
    first = day.replace(day=1) if unit == 'M' else day.replace(month=1, day=1)
    return (first.toordinal() - EPOCH) * DAY - ahead


def _add(at, count, unit, ahead):
    if unit in UNITS or unit in 'Hw':
        return at + count * (7 * DAY if unit == 'w' else UNITS['h' if unit == 'H' else unit])
    at += ahead
    day = datetime.date.fromordinal(at // DAY + EPOCH)
    months = day.year * 12 + day.month - 1 + count * (12 if unit == 'y' else 1)
    year, month = months // 12, months % 12 + 1
    last = (datetime.date(year + month // 12, month % 12 + 1, 1) - datetime.timedelta(days=1)).day
    moved = datetime.date(year, month, min(day.day, last))
    return (moved.toordinal() - EPOCH) * DAY + at % DAY - ahead


def reckon(text, now, form=None, ahead=0, is_up=False):
    """The milliseconds of a date with reckoning, as `now-1M/M` or `2024-03-01||+1d/d`; none where it is none, or `now` is not known."""
    if text.startswith('now'):
        at, rest = now, text[3:]
    else:
        base, found, rest = text.partition('||')
        at = millis(base, form, ahead, is_up and not rest) if found else None
    if at is None:
        return None
    while rest:
        found = re.match(r'^(?:([+-])(\d*)|/)([yMwdhHms])', rest)
        if not found:
            return None
        sign, count, unit = found.groups()
        if sign:
            at = _add(at, int(count or 1) * (1 if sign == '+' else -1), unit, ahead)
        else:
            at = _floor(at, unit, ahead)
            if is_up:
                at = _add(at, 1, unit, ahead) - 1
        rest = rest[found.end():]
    return at

"""The layout of a day file (document 01, 'Day file', with the settings of document 02, W-202 and W-205, and the tolerances of W-211), in one place: each
section as bytes, and the sections of some bytes. All numbers are little-endian; those of times around midnight are signed."""
import struct
from collections import namedtuple

SETTINGS = '<BBIIi'      # count byte 1, samples a second, first and last daytime tick, end of the previous day's last stretch
ENTRY = '<HH'            # of the book: flights by day, flights by night
CALIBRATION = '<BHH'     # count byte 2, level before, level after
COUNT = '<H'             # of the events
FIELDS = '<iBHBHHH'      # of an event: start, class, wind, wet, background, tolerance, number of samples
FIELDS_BEFORE = '<iBHBHH'  # those of before W-211, without a tolerance
LONGEST_WINDOW = 600     # seconds of samples
BEFORE = (10, 216000, 791999)  # the settings of document 01: ten samples a second, daytime from 06:00 to 22:00

Event = namedtuple('Event', 'start klass wind wet background tolerance samples')


class Fault(Exception):
    """what is wrong with a file, in words, and the number that the day program prints for it"""

    def __init__(self, number, text):
        super().__init__(text)
        self.number = number


def no_end(rate):
    """the end to open a day with where the day before has no stretch: 600 seconds before midnight"""
    return -600 * rate


def settings(rate=BEFORE[0], first=BEFORE[1], last=BEFORE[2], end=None, count=1):
    """end: that of the previous day's last stretch, None where there is none"""
    return struct.pack(SETTINGS, count, rate, first, last, no_end(rate) if end is None else end)


def book(flights):
    """flights: for each class those by day and those by night"""
    return bytes([len(flights)]) + b''.join(struct.pack(ENTRY, *entry) for entry in flights)


def calibration(before, after, count=2):
    return struct.pack(CALIBRATION, count, before, after)


def event(start, klass, wind, wet, background, tolerance, samples, announced=None):
    """announced: the number of samples that the record states, where it is not the right one"""
    number = len(samples) if announced is None else announced
    return struct.pack(FIELDS, start, klass, wind, wet, background, tolerance, number) + struct.pack('<%dH' % len(samples), *samples)


def events(records, announced=None):
    """announced: the number of events that the file states, where it is not the right one"""
    return struct.pack(COUNT, len(records) if announced is None else announced) + b''.join(records)


def day_file(parts):
    """the bytes of a whole file, of its sections as they are given below"""
    parts = list(parts)
    fixed = dict(parts[:3])
    return settings(*fixed['settings']) + book(fixed['book']) + calibration(*fixed['calibration']) + events([event(*e) for _, e in parts[3:]])


def sections(data, before=False):
    """The sections of a file in their order, each as soon as it is read: ('settings', (rate, first, last, end)), ('book', flights), ('calibration',
    (before, after)) and ('event', Event) for each event. Raises the Fault of a faulty file where it is met; settings that no terminal has and a book with too
    many flights are no fault of the layout. before: the file is one of before W-211, and every tolerance is 0."""
    at = 0

    def take(form):
        nonlocal at
        size = struct.calcsize(form)
        if at + size > len(data):
            raise Fault(16, 'the file ends early')
        values = struct.unpack_from(form, data, at)
        at += size
        return values

    count, rate, *rest = take(SETTINGS)
    if count != 1:
        raise Fault(16, 'the settings have the count %d' % count)
    yield 'settings', (rate, *rest)
    classes, = take('<B')
    if not 1 <= classes <= 16:
        raise Fault(10, 'the book has %d classes' % classes)
    yield 'book', [take(ENTRY) for _ in range(classes)]
    count, = take('<B')
    if count != 2:
        raise Fault(16, 'the calibration has %d levels' % count)
    yield 'calibration', take('<HH')
    number, = take(COUNT)
    for i in range(number):
        *fields, n = take(FIELDS_BEFORE if before else FIELDS)
        if before:
            fields.append(0)
        if n > LONGEST_WINDOW * rate:
            raise Fault(16, 'event %d has %d samples' % (i + 1, n))
        yield 'event', Event(*fields, list(take('<%dH' % n)))
    if at < len(data):
        raise Fault(17, '%d bytes stand behind the last event' % (len(data) - at))

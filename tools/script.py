"""The scripts of calls that crates/script runs, as text: their lines, what the program prints for them, and their answers by noise.py, pairings.py,
mixes.py, thrusts.py and angles.py.

    LABEL: CALL WORDS = ANSWER      answers that are right are separated by '|', and one that is plausible and wrong stands behind ', not'
    TEXT                            a line without ':' is a heading

In a call 8000*3 stands for 8000 8000 8000, -6000 for that number in 32 bits, two's complement, and '-' alone for below scale or no Lmax. The words of
interpolate and degrees are f64 numbers, each by its bits in 16 hexadecimal digits. An hour is answered by its energy in two halves of 64 bits, the lower
one first. The tolerance of an offer, the sixth number before '/', may be left out; then it is 0. A spread is answered by what stands in the places of the
lowest and of the highest Ldn after a closing, where 7 stood before it. The numbers lent to mixes, and its count, are 7 before the call; ' beyond' at the
end of its answer says that one of the numbers that stay was changed."""
import os
import re
from collections import namedtuple

import angles
import f64
import mixes
import noise
import pairings
import thrusts

CRATES = os.path.join(os.path.dirname(os.path.dirname(os.path.abspath(__file__))), 'crates')

# The label of a call whose stated answer is wrong, so that the program is seen to notice it, begins so.
WRONG_ON_PURPOSE = 'wrong on purpose'

# What '-' stands for where a number is wanted.
NOTHING = 2 ** 31

Call = namedtuple('Call', 'label name numbers slash stated answers')


def expanded(text):
    """a text with each 8000*3 written out"""
    return re.sub(r'(-?\d+|-)\*(\d+)', lambda m: ' '.join([m[1]] * int(m[2])), text)


def signed(n):
    """the number of 32 bits, two's complement; None stays"""
    return n if n is None or n < 2 ** 31 else n - 2 ** 32


def number_of(word, name):
    """the number that a word stands for in a call of some name, None for '-'"""
    if name in ('interpolate', 'degrees'):
        return f64.number(word)
    return None if word == '-' else int(word) % 2 ** 32


def parsed(line):
    """the call of a line, or None for a heading"""
    label, colon, rest = line.partition(':')
    if not colon:
        return None
    call, _, stated = rest.partition('=')
    name, *words = expanded(call).split()
    slash = words.index('/') if '/' in words else 0
    numbers = [number_of(word, name) for word in words if word != '/']
    return Call(label, name, numbers, slash, stated, [a.strip() for a in stated.split(',')[0].split('|')])


class Replay:
    """the calls of a script by the tools, one after the other"""

    def __init__(self):
        self.day = noise.Day([], [])

    def opened(self, *settings_and_book):
        number, self.day = noise.opened(*settings_and_book)
        return ['R %d' % number if number else 'A']

    def book(self, call):
        return self.opened(call.numbers[:call.slash], call.numbers[call.slash:])

    def terminal(self, call):
        settings = [NOTHING if n is None else n for n in call.numbers[:3]]
        return self.opened(call.numbers[3:call.slash], call.numbers[call.slash:], settings)

    def after(self, call):
        end, *settings = call.numbers[:4]
        return self.opened(call.numbers[4:call.slash], call.numbers[call.slash:], settings, signed(end))

    def next(self, call):
        return ['A %d' % self.day.next_end()]

    def hour(self, call):
        return [self.day.hour_answer(*call.numbers)]

    def offer(self, call):
        start, *rest = call.numbers[:call.slash]
        tolerance = rest[4] if len(rest) > 4 else 0
        return self.day.offer_answers(signed(start), *rest[:4], tolerance, call.numbers[call.slash:])

    def close(self, call):
        return self.day.close_answers(*call.numbers)

    def spread(self, call):
        return self.day.spread_answers(*call.numbers, 7)

    def highest(self, call):
        return self.day.highest_answers(*call.numbers, [7] * 16)

    def week(self, call):
        return noise.mean_answers(list(map(signed, call.numbers)), len(call.numbers) == 7)

    def year(self, call):
        return noise.mean_answers(list(map(signed, call.numbers)), 1 <= len(call.numbers) <= 366)

    def rewrite(self, call):
        place, new, read, *levels = call.numbers
        return [noise.rewriting_answer(map(signed, levels), place, signed(new), read)]

    def verdict(self, call):
        klass, yearly, *rest = call.numbers
        return [noise.verdict_answer(klass, signed(yearly), *rest)]

    def land(self, call):
        return [noise.land_answer(*call.numbers)]

    def pair(self, call):
        tolerance, movement_marks, peak_marks, *times = call.numbers
        times = list(map(signed, times))
        return pairings.answers(times[:call.slash - 3], times[call.slash - 3:], tolerance, movement_marks, peak_marks)

    def mixes(self, call):
        measured, lent, *flights = call.numbers
        return [mixes.answer(flights[:call.slash - 2], flights[call.slash - 2:], measured, lent)]

    def interpolate(self, call):
        thrust, *row_thrusts = call.numbers[:call.slash]
        return [thrusts.answer(row_thrusts, call.numbers[call.slash:], thrust)]

    def degrees(self, call):
        return [angles.answer(*call.numbers)]

    def answers(self, call):
        """the answers that are right for the next call, the exact one first"""
        return getattr(self, call.name)(call)


def replayed(text):
    """each call of a script, with the answers that are right by the tools"""
    replay = Replay()
    for line in text.splitlines():
        call = parsed(line)
        if call:
            yield call, replay.answers(call)


def differences(text):
    """a line for each call whose exact answer by the tools is not among the stated ones"""
    for call, right in replayed(text):
        if (right[0] in call.answers) == call.label.startswith(WRONG_ON_PURPOSE):
            yield '%s: stated%s, by the tools %s' % (call.label, call.stated, right[0])


def printed(text):
    """what the program prints for a script, with every call, when each answer that is not wrong on purpose comes as it is stated"""
    out, calls, different, replay = [], 0, 0, replayed(text)
    for line in text.splitlines():
        call = parsed(line)
        if call is None:
            out.append(line)
            continue
        _, right = next(replay)
        wrong = call.label.startswith(WRONG_ON_PURPOSE)
        out.append('%s: %s, should be%s' % (call.label, right[0] if wrong else call.answers[0], call.stated))
        calls += 1
        different += wrong
    return '\n'.join(out + ['%d calls, %d different' % (calls, different)]) + '\n'


def stored(crate):
    """the script of a crate's program, as it stands"""
    with open(os.path.join(CRATES, crate, 'stdin')) as file:
        return file.read()


def append(crate, lines, different=()):
    """appends calls to the script of a crate's program, which shows differences alone, and writes what it then prints"""
    before, made = stored(crate), '\n'.join(lines) + '\n'
    if made in before:
        raise SystemExit('these lines stand there already')
    counts = '%d calls, %d different' % ((before + made).count('\n'), len(different))
    with open(os.path.join(CRATES, crate, 'stdin'), 'a') as stdin, open(os.path.join(CRATES, crate, 'stdout'), 'w') as stdout:
        stdin.write(made)
        stdout.write('\n'.join([*different, counts]) + '\n')


def compare(crate):
    """shows each stored answer of a crate's script that differs from that of the tools, and gives how many do"""
    found = list(differences(stored(crate)))
    print('\n'.join(found + ['%d answers differ' % len(found)]))
    return len(found)

"""Document 02, W-203, apart from the library: every largest pairing of two short lists, found by trying all pairings, and one of two long lists, found by
augmenting paths. Neither asks whether the lists rise. The texts are those of the call `pair` of a script."""

# What stands in each mark before a call, and how many marks of a list are shown.
BEFORE, SHOWN = 7, 8
# The longest lists of which every pairing is tried.
SHORT = 7


def unfit(times, marks):
    return any(b < a for a, b in zip(times, times[1:])) or len(times) > 2000 or marks != len(times)


def partners(movements, peaks, tolerance):
    """for each movement the places of the peaks that are no further apart than the tolerance"""
    return [[j for j, peak in enumerate(peaks) if abs(movement - peak) <= tolerance] for movement in movements]


def all_pairings(near, i=0, used=()):
    """every pairing of the movements from a place on, as the partner of each or None"""
    if i == len(near):
        yield ()
        return
    for j in [j for j in near[i] if j not in used] + [None]:
        for rest in all_pairings(near, i + 1, used + (j,)):
            yield (j,) + rest


def count(pairing):
    return sum(j is not None for j in pairing)


def largest_pairings(near):
    """every pairing of the largest number of pairs"""
    pairings = list(all_pairings(near))
    most = max(map(count, pairings))
    return [pairing for pairing in pairings if count(pairing) == most]


def a_largest_pairing(near):
    """one pairing of the largest number of pairs: no path leads from it to one pair more"""
    movement_of = {}

    def finds_partner(i, tried):
        for j in near[i]:
            if j not in tried:
                tried.add(j)
                if j not in movement_of or finds_partner(movement_of[j], tried):
                    movement_of[j] = i
                    return True
        return False

    for i in range(len(near)):
        finds_partner(i, set())
    peak_of = {i: j for j, i in movement_of.items()}
    return tuple(peak_of.get(i) for i in range(len(near)))


def text(answer, movement_marks, peak_marks):
    return ' '.join(map(str, [answer, '/', *movement_marks[:SHOWN], '/', *peak_marks[:SHOWN]]))


def answers(movements, peaks, tolerance, movement_marks, peak_marks):
    """the texts that are right for a call that is lent so many marks: of short lists one for each largest pairing"""
    if unfit(movements, movement_marks) or unfit(peaks, peak_marks):
        return [text('R 19', [BEFORE] * movement_marks, [BEFORE] * peak_marks)]
    near = partners(movements, peaks, tolerance)
    short = max(len(movements), len(peaks)) <= SHORT
    out = []
    for pairing in largest_pairings(near) if short else [a_largest_pairing(near)]:
        marks = [0] * len(peaks)
        for i, j in enumerate(pairing):
            if j is not None:
                marks[j] = i + 1
        out.append(text('A %d' % count(pairing), [0 if j is None else j + 1 for j in pairing], marks))
    return out

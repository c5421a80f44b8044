"""Which stamps of a run a line has, for line_up/run and program/run."""
import bisect


def most_that_rise(values):
    """The places of a longest choice that does not fall. The length of the longest choice that ends at each place is found by bisection; from the back the last place
    of each length, from the greatest down, is taken."""
    ends, lengths = [], []
    for value in values:
        at = bisect.bisect_right(ends, value)
        ends[at : at + 1] = [value]
        lengths.append(at + 1)
    chosen, wanted = [], len(ends)
    for i in reversed(range(len(values))):
        if lengths[i] == wanted:
            chosen.append(i)
            wanted -= 1
    return chosen[::-1]

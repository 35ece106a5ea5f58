"""Sites by function: what each held, and which the picture draws."""
from collections import namedtuple

from log import CHANGE
from texts import counted

TOP = 10
# The chart's groups hold this share of the peak, where ten of them can.
SHARE = 0.6
# A group of sites: its name, and the sites.
Group = namedtuple("Group", "told sites")
# A part of the chart: its class, its name, and its bytes at each point.
Band = namedtuple("Band", "name told values")


def groups_of(log):
    """The functions, in the order of their first sites, each with its sites."""
    groups = {}
    for site, of in enumerate(log.function_of):
        groups.setdefault(of, []).append(site)
    return [Group(log.functions.label(log.sites[sites[0]].function), sites)
            for sites in groups.values()]


def held_by(part, log, group):
    """Bytes that a group holds in a part of the report."""
    return sum(part.get(log.locations[site], (0, 0))[0] for site in group.sites)


def series_of(log, groups):
    """Bytes of each group at each point."""
    place = {site: row for row, group in enumerate(groups) for site in group.sites}
    held, series = [0] * len(groups), [[] for _ in groups]
    for changes in log.changes:
        for at in range(0, len(changes), CHANGE):
            row = place.get(changes[at])
            if row is not None:
                held[row] += changes[at + 1]
        for values, value in zip(series, held):
            values.append(value)
    return series


def stacked(log, groups):
    """The greatest groups with their bytes at each point, the greatest first, and the rest as
    one."""
    series = series_of(log, groups)
    most = [max(values, default=0) for values in series]
    peak = [held_by(log.at_peak, log, group) for group in groups]
    order = sorted((row for row in range(len(groups)) if most[row] > 0),
                   key=lambda row: (-most[row], groups[row].told))
    if sum(peak[row] for row in order[:TOP]) < SHARE * sum(peak):
        order.sort(key=lambda row: (-peak[row], groups[row].told))
    bands = [Band(f"s{at}", groups[row].told, series[row]) for at, row in enumerate(order[:TOP])]
    rest = order[TOP:]
    if rest:
        values = [sum(held) for held in zip(*(series[row] for row in rest))]
        greatest = max(rest, key=lambda row: most[row])
        share = 100 * sum(peak[row] for row in rest) / max(sum(peak), 1)
        bands.append(Band("rest",
                          f"{counted(len(rest), 'other')}, with {share:.0f} % of the peak, the "
                          f"greatest {groups[greatest].told}", values))
    return bands

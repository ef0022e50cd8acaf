"""Short inputs on which two sides still differ: an input is taken apart into a head and items, and items are left out."""

from nuthkolla import record

CALL, CONFIGURATION, BACK = 0, 1, 2


def calls_of(data, tagged):
    """A recording's or (tagged) a list's configuration record and its calls; what cannot be read is one last item."""
    ends = []
    try:
        _, place = record.read_configuration(data)
        while place < len(data):
            ends.append(place)
            at = place + tagged
            if tagged and data[place] == BACK:
                place = at
                continue
            read = record.read_configuration if tagged and data[place] == CONFIGURATION else record.read_call
            _, place = read(data, at)
    except record.Refusal:
        pass
    if not ends:
        return data, []
    return data[: ends[0]], [data[a:b] for a, b in zip(ends, ends[1:] + [len(data)])]


def entries_of(data):
    """Entries for the records alone: five bytes, of which the last says how many follow."""
    items, place = [], 0
    while place < len(data):
        after = place + 5 + data[place + 4]
        items.append(data[place:after])
        place = after
    return b"", items


def parts_of(data):
    """Many inputs, each after its length."""
    items, place = [], 0
    while place < len(data):
        after = place + 4 + int.from_bytes(data[place : place + 4], "little")
        items.append(data[place:after])
        place = after
    return b"", items


APART = {
    "recording": lambda data: calls_of(data, 0),
    "list": lambda data: calls_of(data, 1),
    "entries": entries_of,
    "many": parts_of,
}


def shortest(form, data, differs):
    """As few items as may be: the shortest front that differs, then without items that are not needed."""
    head, items = APART[form](data)
    low, high = 0, len(items)
    while low < high:
        middle = (low + high) // 2
        low, high = (low, middle) if differs(head + b"".join(items[:middle])) else (middle + 1, high)
    items = items[:low]
    step = max(len(items) // 2, 1)
    while step and items:
        at = 0
        while at < len(items):
            fewer = items[:at] + items[at + step :]
            if differs(head + b"".join(fewer)):
                items = fewer
            else:
                at += step
        step //= 2
    return head + b"".join(items)

"""Reads test vectors, one JSON object a line, from standard input. Checks of each that it agrees with itself, and counts by
instruction what the vectors reach: endings, forms of operands, condition codes, and vectors of the system control block."""
import collections
import json
import re
import sys

SCB = 0x80000000


def replayed(vector):
    """The bytes that the accesses leave, where each read gives what is there."""
    memory = dict(map(tuple, vector["initial"]["ram"]))
    touched = {}
    for way, address, length, data in vector["accesses"]:
        assert length == len(data) and way in "rw"
        for k, byte in enumerate(data):
            place = (address + k) % 2**32
            if way == "r":
                assert memory.get(place, 0) == byte
            memory[place] = touched[place] = byte
    return touched


def pages(vector):
    """The pages of the accesses, each once, in order."""
    order = []
    for _, address, length, _ in vector["accesses"]:
        for k in range(length):
            page = (address + k) % 2**32 // 512 * 512
            if page not in order:
                order.append(page)
    return order


def taken(vector):
    """The places among the accesses at which a vector of the system control block is read."""
    return [k for k, (way, a, n, _) in enumerate(vector["accesses"]) if way == "r" and n == 4 and SCB <= a < SCB + 512]


def check_undone(vector):
    """Before a fault is delivered, each write is undone by one that puts back what was there, the last first. Those before a trap stay."""
    places = taken(vector)
    if not places or vector["accesses"][places[0]][1] - SCB == 0x34:
        return
    memory = dict(map(tuple, vector["initial"]["ram"]))
    writes = [a for a in vector["accesses"][: places[0]] if a[0] == "w"]
    count = len(writes) // 2
    assert len(writes) == 2 * count
    for (_, address, length, data), (_, again, same, back) in zip(writes[:count], reversed(writes[count:])):
        span = [(address + k) % 2**32 for k in range(length)]
        assert again == address and same == length and back == [memory.get(place, 0) for place in span]
        memory.update(zip(span, data))


def check(vector):
    first, last, ends = vector["initial"], vector["final"], vector["ends"]
    assert all(a < b for (a, _), (b, _) in zip(last["ram"], last["ram"][1:]))
    if ends[0] in ("step", "part"):
        assert sorted(replayed(vector).items()) == list(map(tuple, last["ram"]))
        assert pages(vector) == vector["touched"]
        check_undone(vector)
        assert not set(vector["touched"]) & set(first["absent"])
    else:
        assert not vector["accesses"] and not last["ram"]
        assert all(first[name] == last[name] for name in ("regs", "psl", "stacks", "sisr", "iccs", "clock"))
    if ends[0] == "absent":
        assert next(page for page in vector["touched"] if page in first["absent"]) == ends[1]


FORMS = [
    ("literal", r"S\^#"),
    ("immediate", r"I\^#"),
    ("absolute", r"@#"),
    ("decrement", r"-\("),
    ("byte displacement deferred", r"@B\^"),
    ("word displacement deferred", r"@W\^"),
    ("longword displacement deferred", r"@L\^"),
    ("increment deferred", r"@\(.*\)\+"),
    ("byte displacement", r"B\^"),
    ("word displacement", r"W\^"),
    ("longword displacement", r"L\^"),
    ("increment", r"\(.*\)\+"),
    ("register deferred", r"\("),
    ("branch", r"\^X"),
    ("register", r""),
]


def forms(name):
    """The forms of an instruction's operands, by its text; an index is a form of its own."""
    words = name.split(None, 1)
    if len(words) < 2:
        return set()
    if words[1] == "reserved":
        return {"reserved"}
    found = set()
    for operand in words[1].split(","):
        if operand.endswith("]"):
            found.add("index")
        found.add(next(form for form, pattern in FORMS if re.match(pattern, operand)))
    return found


def main():
    reached = collections.defaultdict(set)
    kinds = collections.defaultdict(collections.Counter)
    codes = collections.defaultdict(set)
    causes = collections.defaultdict(set)
    count = 0
    for line in sys.stdin:
        vector = json.loads(line)
        check(vector)
        count += 1
        name = vector["name"].split()[0]
        kinds[name][vector["ends"][0]] += 1
        reached[name] |= forms(vector["name"])
        if vector["ends"][0] == "step":
            found = {vector["accesses"][place][1] - SCB for place in taken(vector)}
            causes[name] |= found
            if not found:
                codes[name].add(vector["final"]["psl"] & 15)
    print(count, "vectors agree with themselves")
    for name in sorted(kinds):
        ends = " ".join(f"{kind} {n}" for kind, n in sorted(kinds[name].items()))
        print(f"{name}: {ends}; forms {len(reached[name])}; codes {len(codes[name])}; vectors {' '.join(f'{c:02X}' for c in sorted(causes[name]))}")


main()

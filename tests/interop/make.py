"""Messages for the comparison, from a seed: names of topics and message ids, what is to be said (in the words of README.md), damage, and
messages composed field by field."""

from walk import BITS_64, FIXED_32, FIXED_64, GROUP, GROUP_END, LENGTH, SCHEMA, VARINT, WIRE_TYPES

TOPICS = 8
NAME_BYTES = 64
ID_BYTES = 64
ABSENT = "-"
IDONTWANT = 3


class Names(list):
    """the names of eight topics, and message ids with their numbers"""
    ids = {}


# what makes the longest message that ours writes: pairs (join, topic), and (kind, seconds, topic)
LONGEST_NAMES = Names(bytes([65 + topic]) * NAME_BYTES for topic in range(TOPICS))
LONGEST_LISTS = [(1, topic) for topic in range(TOPICS)], [(2, 3600, topic) for topic in range(TOPICS)] * 8


def text(rng, length, utf8):
    """a name of so many bytes"""
    if not utf8:
        return rng.randbytes(length)
    letters = b""
    while len(letters) < length:
        more = chr(rng.choice([rng.randrange(32, 127), rng.randrange(128, 2048), rng.randrange(0x10000, 0x10FFFF)])).encode()
        letters += more if len(letters) + len(more) <= length else b"~"
    return letters


def make_names(rng, utf8):
    """the names of eight topics, no two alike, b"" for none; and some message ids, no two alike, with numbers of which no two are"""
    names = Names()
    while len(names) < TOPICS:
        kind = rng.random()
        if kind < 0.15 and names:
            name = b""
        elif kind < 0.3 and names and names[-1]:
            name = (names[-1] + b"x")[:NAME_BYTES]  # one the front of another
        else:
            name = text(rng, rng.choice([1, 2, 3, 8, 20, 63, 64, rng.randint(1, NAME_BYTES)]), utf8)
        if name == b"" or name not in names and (not utf8 or clean(name) == name):
            names.append(name)
    known = {rng.randbytes(rng.choice([1, 2, 20, 40, 63, 64])) for _ in some(rng, 12)}
    known |= {name + b"x" for name in known if len(name) < ID_BYTES and rng.random() < 0.2}
    names.ids = dict(zip(sorted(known), rng.sample(range(1 << 62), len(known))))
    if known and rng.random() < 0.5:
        names.ids[rng.choice(sorted(known))] = (1 << 64) - 1
    return names


def clean(name):
    return name.decode(errors="ignore").encode()


def table(rng, names):
    """the table of names that the library takes; bytes past a name are anything"""
    return b"".join(bytes([len(name)]) + name + rng.randbytes(NAME_BYTES - len(name)) for name in names)


def id_line(rng, ids):
    """the table of ids that the library takes: rows, the shorter first, their numbers, and the rows by rising number"""
    rows = sorted(ids, key=lambda name: (len(name), name))
    numbers = [ids[name] for name in rows]
    order = sorted(range(len(rows)), key=lambda row: numbers[row])
    data = b"".join(bytes([len(name)]) + name + rng.randbytes(ID_BYTES - len(name)) for name in rows)
    listed = lambda values: ",".join(map(str, values)) or ABSENT
    return f"ids {data.hex() or ABSENT} {listed(numbers)} {listed(order)}"


def an_id(rng, ids):
    """a message id of the table, or one near it, or any"""
    kind = rng.random()
    known = rng.choice(list(ids)) if ids else b"none"
    if kind < 0.6:
        return known
    if kind < 0.7:
        return known[:-1]
    if kind < 0.8:
        return known + b"\0"
    return rng.randbytes(rng.choice([0, 1, 20, 64, 65]))


def a_topic(rng, names, utf8):
    """a topic's name, or one that is no topic's, or None"""
    kind = rng.random()
    known = rng.choice(names)
    if kind < 0.7:
        return known
    if kind < 0.77:
        return None
    if kind < 0.82:
        return b""
    if kind < 0.87:
        return clean(known[:-1]) if utf8 else known[:-1]
    if kind < 0.92:
        return known + b"a"
    return text(rng, rng.choice([65, 100, 200, rng.randint(1, 70)]), utf8)


def some(rng, most):
    return range(rng.randint(0, most))


def word(value):
    return ABSENT if value is None else value.hex()


def a_word(rng, most=20):
    """a word of an optional field of bytes"""
    return ABSENT if rng.random() < 0.3 else rng.randbytes(rng.randint(0, most)).hex()


def ids(rng):
    return "".join("," + rng.randbytes(rng.choice([0, 1, 20, 40])).hex() for _ in some(rng, 3))


def number(rng, bits=64):
    return rng.choice([0, 1, 60, rng.randint(0, 3600), rng.getrandbits(rng.randint(1, bits)), (1 << bits) - 1])


def make_words(rng, names, utf8, most=5):
    """what a message is to say"""
    topic = lambda: word(a_topic(rng, names, utf8))
    items = [f"sub,{rng.choice('01-')},{topic()}" for _ in some(rng, most)]
    for _ in some(rng, 2):
        sender = word(text(rng, rng.randint(0, 8), utf8))
        about = word(a_topic(rng, names, utf8) or b"")
        items.append(",".join(["publish", rng.choice([ABSENT, sender]), a_word(rng, 100), a_word(rng), about, a_word(rng), a_word(rng)]))
    if rng.random() < 0.8:
        items.append("control")
        items += [f"ihave,{topic()}{ids(rng)}" for _ in some(rng, 2)]
        items += [f"iwant{ids(rng)}" for _ in some(rng, 2)]
        items += [f"graft,{topic()}" for _ in some(rng, most)]
        for _ in some(rng, most):
            peers = "".join(f",{a_word(rng)}/{a_word(rng)}" for _ in some(rng, 2))
            items.append(f"prune,{topic()},{rng.choice([ABSENT, str(number(rng))])}{peers}")
        for _ in some(rng, 2):
            items.append("idontwant" + "".join("," + an_id(rng, names.ids).hex() for _ in some(rng, most)))
    return " ".join(items)


def sized_words(size):
    """a message of a subscription, and of a publish that brings it to so many bytes"""
    return f"sub,1,61 publish,-,{'00' * (size - 17)},-,6161,-,-"


def damage(rng, data):
    """a message with one to three faults"""
    for _ in range(rng.choice([1, 1, 1, 2, 3])):
        at = rng.randint(0, len(data))
        to = min(len(data), at + rng.randint(1, 3))
        kind = rng.randrange(6)
        if kind == 0:
            data = data[:at]
        elif kind == 1 and at < len(data):
            data = data[:at] + bytes([data[at] ^ 1 << rng.randrange(8)]) + data[at + 1:]
        elif kind == 2:
            data = data[:at] + rng.randbytes(to - at) + data[to:]
        elif kind == 3:
            data = data[:at] + rng.randbytes(rng.randint(1, 3)) + data[at:]
        elif kind == 4:
            data = data[:at] + data[to:]
        else:
            data = data + data[at:]
    return data


def varint(rng, value):
    """a number: mostly the shortest form, else overlong, at times too long or too wide"""
    out = bytearray()
    while value > 127:
        out.append(value & 127 | 128)
        value >>= 7
    out.append(value)
    kind = rng.random()
    if kind < 0.06 and len(out) < 10:
        longer = rng.randint(len(out) + 1, 11 if kind < 0.01 else 10)
        out[-1] |= 128
        out += bytes([128] * (longer - len(out) - 1)) + b"\0"
    if kind < 0.04 and len(out) == 10:
        out[-1] |= rng.choice([2, 126])
    return bytes(out)


def tag(rng, field, wire):
    return varint(rng, (field << 3 | wire) & BITS_64)


def a_field(rng, kind):
    """a field number and a wire type: mostly known ones"""
    known = rng.choice(list(SCHEMA[kind]))
    wire = WIRE_TYPES.get(SCHEMA[kind][known], LENGTH)
    what = rng.random()
    if what < 0.8:
        return known, wire
    if what < 0.84:
        return known, rng.choice([VARINT, FIXED_64, LENGTH, FIXED_32, GROUP])
    if what < 0.88:
        return known + (rng.choice([1, 2, 4, 7]) << rng.choice([29, 30, 32, 40])), wire
    if what < 0.9:
        return rng.choice([rng.getrandbits(61), 1 << 28, (1 << 29) - 1, 1 << 29, 1 << 31]), rng.choice([VARINT, FIXED_64, LENGTH, FIXED_32])
    if what < 0.91:
        return 0, rng.randrange(8)
    return rng.randint(7, 40), rng.choice([VARINT, FIXED_64, LENGTH, FIXED_32, GROUP] * 4 + [GROUP_END, 6, 7])


def compose(rng, kind, names, most=5):
    """a message of any fields, field by field"""
    return b"".join(compose_field(rng, kind, names, *a_field(rng, kind)) for _ in some(rng, most))


def compose_field(rng, kind, names, field, wire):
    front = tag(rng, field, wire)
    if wire == VARINT:
        return front + varint(rng, rng.choice([number(rng), 1 << 32]))
    if wire in (FIXED_64, FIXED_32):
        return front + rng.randbytes(8 if wire == FIXED_64 else 4)
    if wire == GROUP:
        end = field if rng.random() < 0.8 else rng.randint(0, 20)
        return front + compose(rng, kind, names, 2) + tag(rng, end, GROUP_END)
    if wire != LENGTH:
        return front
    known = SCHEMA[kind].get(field % (1 << 29))
    if known in SCHEMA:
        contents = compose(rng, known, names)
    elif known == "string":
        contents = a_topic(rng, names, rng.random() < 0.9) or b""
    elif kind == "idontwant":
        contents = an_id(rng, names.ids)
    else:
        contents = rng.randbytes(rng.randint(0, 8))
    length = len(contents)
    if rng.random() < 0.03:
        length += rng.choice([1, -1, 1 << 32, 3 << 40, 1 << 63, -length - rng.randint(1, 20)])
    return front + varint(rng, length & BITS_64) + contents


def make_lists(rng, names):
    """joins and leaves, and actions for one peer, on named topics: pairs (join, topic), and (kind, seconds, topic); of kind 3 a message's
    number in the place of the topic"""
    named = [topic for topic in range(TOPICS) if names[topic]]
    few = rng.random() < 0.5
    changes = [(rng.randint(0, 1), rng.choice(named)) for _ in some(rng, 2 if few else 8)]
    actions = []
    for _ in some(rng, 4 if few else 64):
        kind = rng.randint(1, IDONTWANT if names.ids else 2)
        if kind == IDONTWANT:
            actions.append((kind, 0, rng.choice(list(names.ids.values()))))
            continue
        seconds = 0 if kind == 1 else rng.choice([0, 1, 10, 60, 127, 128, 3600, rng.randint(0, 3600)])
        actions.append((kind, seconds, rng.choice(named)))
    return changes, actions

"""An independent walk over the bytes of an RPC, and the kinds in which the three implementations differ from it.

Without kinds it reads as orders 1 and 6 ask. Each kind is one way in which an implementation reads otherwise; with all kinds of an
implementation the walk must say exactly what that implementation says, so a difference that no kind explains is seen."""

LONGEST = 16_384
BITS_32 = (1 << 32) - 1
BITS_64 = (1 << 64) - 1
VARINT, FIXED_64, LENGTH, GROUP, GROUP_END, FIXED_32 = range(6)

# what an implementation does, and the words of order 1 that ask something else
KINDS = {
    "any length": ("reads messages over 16,384 bytes", "A message over 16,384 bytes gives 10"),
    "65 bits": ("drops the bits above 64 of a tenth byte", "up to ten bytes and 64 bits"),
    "tag of 32 bits": ("cuts a tag to 32 bits, so that a high field number becomes a low one", "Unknown fields are skipped"),
    "field of 32 bits": ("cuts a field number to 32 bits, and refuses one whose sign bit is set", "Unknown fields are skipped"),
    "length of 32 bits": ("cuts the length of a known field to 32 bits", "up to ten bytes and 64 bits"),
    "bool of 32 bits": ("cuts a bool to 32 bits, so that 2^32 is false", "a subscribe above 0 is 1"),
    "five bytes": ("refuses a tag or a length of more than five bytes", "Numbers may be overlong here, up to ten bytes"),
    "field 0": ("skips a field of number 0", "Malformed bytes (field 0 too) give 10"),
    "other wire type": ("refuses a known field of another wire type", "known ones of another wire type, are skipped"),
    "group": ("skips a group up to its end of the same number", "Malformed bytes (wire types other than 0, 1, 2 and 5 too) give 10"),
    "loose group": ("skips a group up to its end of any number", "Malformed bytes (wire types other than 0, 1, 2 and 5 too) give 10"),
    "contents": ("reads publish, ihave, iwant and peers", "skipped; unknown fields are skipped"),
    "required": ("refuses a publish without its required topic", "publish 2 skipped"),
    "UTF-8": ("refuses a string that is not UTF-8", "Topic names of 1 to 64 bytes"),
    "last control": ("takes the last control field alone", "Entries of a repeated control field are joined"),
}

DIALECTS = {
    "gogo": ("any length", "65 bits", "field of 32 bits", "other wire type", "loose group", "contents", "required"),
    "quick": ("any length", "65 bits", "tag of 32 bits", "length of 32 bits", "bool of 32 bits", "field 0", "contents", "UTF-8",
              "last control"),
    "protoc": ("any length", "65 bits", "tag of 32 bits", "five bytes", "group", "contents"),
}

# the fields of each message: number to type
SCHEMA = {
    "rpc": {1: "sub", 2: "publish", 3: "control"},
    "sub": {1: "bool", 2: "string"},
    "publish": {1: "string", 2: "bytes", 3: "bytes", 4: "string", 5: "bytes", 6: "bytes"},
    "control": {1: "ihave", 2: "iwant", 3: "graft", 4: "prune", 5: "idontwant"},
    "ihave": {1: "string", 2: "bytes"},
    "iwant": {1: "bytes"},
    "graft": {1: "string"},
    "prune": {1: "string", 2: "peer", 3: "uint64"},
    "peer": {1: "bytes", 2: "bytes"},
    "idontwant": {1: "bytes"},
}
SKIPPED = ("publish", "ihave", "iwant", "peer")
WIRE_TYPES = {"bool": VARINT, "uint64": VARINT}  # all others are LENGTH


class Broken(Exception):
    """a message that is refused; the argument is the place of the tag"""


class Walk:
    def __init__(self, data, kinds):
        self.data = data
        self.kinds = kinds

    def number(self, place, at, end, most=10):
        """the number at a place, and the place after it"""
        value = 0
        for i in range(most):
            if at + i >= end:
                raise Broken(place)
            byte = self.data[at + i]
            value |= (byte & 127) << 7 * i
            if byte < 128:
                if value > BITS_64 and "65 bits" not in self.kinds:
                    raise Broken(place)
                return value & BITS_64, at + i + 1
        raise Broken(place)

    def tag(self, at, end):
        """field number and wire type of the tag at a place, and the place after it"""
        tag, after = self.number(at, at, end, 5 if "five bytes" in self.kinds else 10)
        if "tag of 32 bits" in self.kinds:
            tag &= BITS_32
        return tag >> 3, tag & 7, after

    def value(self, place, wire, at, end, cut=False):
        """the value after a tag: a number or the two ends of its bytes, and the place after it"""
        if wire == VARINT:
            return self.number(place, at, end)
        if wire == LENGTH:
            length, at = self.number(place, at, end, 5 if "five bytes" in self.kinds else 10)
            if cut:
                length &= BITS_32
        elif wire in (FIXED_64, FIXED_32):
            length = 8 if wire == FIXED_64 else 4
        else:
            raise Broken(place)
        if at + length > end:
            raise Broken(place)
        return (at, at + length), at + length

    def skip_group(self, place, number, at, end):
        """the place after a group, whose begin is read"""
        while True:
            field, wire, at = self.tag(at, end)
            if "group" in self.kinds and (field == 0 or wire == GROUP_END and field != number):
                raise Broken(place)
            if wire == GROUP_END:
                return at
            if wire == GROUP:
                at = self.skip_group(place, field, at, end)
            else:
                _, at = self.value(place, wire, at, end)

    def fields(self, kind, at, end):
        """place, type (None: not known) and value of each field of a message"""
        while at < end:
            place = at
            number, wire, at = self.tag(at, end)
            if "field of 32 bits" in self.kinds:
                number &= BITS_32
                if number > BITS_32 >> 1:
                    raise Broken(place)
            if number == 0 and "field 0" not in self.kinds:
                raise Broken(place)
            known = SCHEMA[kind].get(number)
            if known and wire != WIRE_TYPES.get(known, LENGTH):
                if "other wire type" in self.kinds:
                    raise Broken(place)
                known = None
            if wire == GROUP and ("group" in self.kinds or "loose group" in self.kinds):
                at = self.skip_group(place, number, at, end)
            else:
                value, at = self.value(place, wire, at, end, known and "length of 32 bits" in self.kinds)
                if known:
                    yield place, number, known, value

    def message(self, kind, place, at, end):
        """the values of a message: field number to list"""
        got = {}
        for place_of, number, known, value in self.fields(kind, at, end):
            if known in SKIPPED and "contents" not in self.kinds:
                continue
            if known in SCHEMA:
                value = self.message(known, place_of, *value)
            elif known == "bool":
                value = (value & BITS_32 if "bool of 32 bits" in self.kinds else value) != 0
            elif known in ("string", "bytes"):
                value = self.data[value[0]:value[1]]
            if known == "string" and "UTF-8" in self.kinds and not utf8(value):
                raise Broken(place_of)
            got.setdefault(number, []).append(value)
        if kind == "publish" and "required" in self.kinds and 4 not in got:
            raise Broken(place)
        return got

    def entries(self):
        """kind, topic (None: absent) and value (None: absent) of each subscription, GRAFT and PRUNE; kind, id and None of each id of the
        IDONTWANTs"""
        if len(self.data) > LONGEST and "any length" not in self.kinds:
            raise Broken(LONGEST)
        rpc = self.message("rpc", 0, 0, len(self.data))
        controls = rpc.get(3, [])
        if "last control" in self.kinds:
            controls = controls[-1:]
        subs = [(0, last(s, 2), last(s, 1)) for s in rpc.get(1, [])]
        grafts = [(1, last(g, 1), None) for c in controls for g in c.get(3, [])]
        prunes = [(2, last(p, 1), last(p, 3)) for c in controls for p in c.get(4, [])]
        notices = [(3, name, None) for c in controls for i in c.get(5, []) for name in i.get(1, [])]
        return subs + grafts + prunes + notices


def last(message, number):
    return message[number][-1] if number in message else None


def utf8(text):
    try:
        text.decode()
    except UnicodeDecodeError:
        return False
    return True


def walk(data, kinds=()):
    """the entries of a message and None, or None and the place where it is broken"""
    try:
        return Walk(data, kinds).entries(), None
    except Broken as broken:
        return None, broken.args[0]

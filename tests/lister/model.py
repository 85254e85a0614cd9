"""A store of its own, written from the papers: the layout, the check, the list, and the edits that build images.

check() answers the refusal's number with the names of the rules that are broken in that stage, so that a case can
say which rule it is about, and that it breaks no other.
"""
import random

LIMIT = 65536
LARGEST = 16777216


# ---- XXH64, seed 0

MASK = 2**64 - 1
P1, P2, P3 = 0x9E3779B185EBCA87, 0xC2B2AE3D27D4EB4F, 0x165667B19E3779F9
P4, P5 = 0x85EBCA77C2B2AE63, 0x27D4EB2F165667C5


def left(x, n):
    return (x << n | x >> (64 - n)) & MASK


def lane(acc, x):
    return left((acc + x * P2) & MASK, 31) * P1 & MASK


def xxh64(data):
    words = [int.from_bytes(data[i:i + 8], "little") for i in range(0, len(data) // 8 * 8, 8)]
    at = 0
    if len(data) < 32:
        h = P5
    else:
        v = [(P1 + P2) & MASK, P2, 0, -P1 & MASK]
        while len(words) - at >= 4:
            v = [lane(v[i], words[at + i]) for i in range(4)]
            at += 4
        h = sum(left(v[i], r) for i, r in enumerate((1, 7, 12, 18))) & MASK
        for x in v:
            h = ((h ^ lane(0, x)) * P1 + P4) & MASK
    h = (h + len(data)) & MASK
    for x in words[at:]:
        h = (left(h ^ lane(0, x), 27) * P1 + P4) & MASK
    rest = data[len(words) * 8:]
    if len(rest) >= 4:
        h = (left(h ^ int.from_bytes(rest[:4], "little") * P1 & MASK, 23) * P2 + P3) & MASK
        rest = rest[4:]
    for b in rest:
        h = left(h ^ b * P5 & MASK, 11) * P1 & MASK
    h = (h ^ h >> 33) * P2 & MASK
    h = (h ^ h >> 29) * P3 & MASK
    return h ^ h >> 32


# ---- settings

FIELDS = ("g segments header slot slots kbits vbits lookup freelist inner chunks chunk tier binner btiers bulk "
          "most").split()


def power(n, least, most):
    return least <= n <= most and n & (n - 1) == 0


class Settings:
    def __init__(self, *numbers):
        self.__dict__.update(zip(FIELDS, numbers, strict=True))

    def but(self, **fields):
        assert set(fields) <= set(FIELDS)
        return Settings(*(fields.get(f, getattr(self, f)) for f in FIELDS))

    def block(self, length=69, version=1):
        return length.to_bytes(2, "big") + bytes([version]) + b"".join(getattr(self, f).to_bytes(4, "big") for f in FIELDS)

    def faults(self):
        """The fields that break their rule."""
        fine = {
            "g": self.g % 64 == 0 and self.g <= 65536,
            "segments": power(self.segments, 1, 256),
            "header": 32 <= self.header <= 256,
            "slot": self.slot in (4, 8),
            "slots": power(self.slots, 4, 4096),
            "kbits": 1 <= self.kbits <= 56,
            "vbits": 1 <= self.vbits <= 32 and self.kbits + self.vbits <= 8 * self.slot and 2**self.vbits >= self.chunks,
            "lookup": self.slots * self.slot <= self.lookup,
            "freelist": (self.chunks + 7) // 8 <= self.freelist,
            "inner": self.inner <= 4096,
            "chunks": 1 <= self.chunks <= 4096,
            "chunk": 1 <= self.chunk <= 4096,
            "tier": self.lookup + 64 + self.freelist + self.inner + self.chunks * self.chunk <= self.tier,
            "binner": self.binner <= 65536,
            "btiers": 1 <= self.btiers <= 64,
            "bulk": self.binner + self.btiers * self.tier <= self.bulk,
            "most": 1 <= self.most <= min(64, self.chunks),
        }
        return {f for f in FIELDS if not fine[f] or getattr(self, f) > LARGEST}

    # a key's segment, its lookup key, the slot where its search starts
    def segment(self, key):
        return xxh64(key) % self.segments

    def lookup_key(self, key):
        ones = 2**self.kbits - 1
        return xxh64(key) // self.segments & ones or ones

    def start(self, key):
        return self.lookup_key(key) % self.slots

    def cover(self, size):
        return -(-size // self.chunk)


# ---- places in an image

STATE = {"bulks": (8, 3), "free": (11, 5), "used": (16, 5), "headers": (21, 4), "size": (25, 8)}
HEADER = {"count": (8, 4), "low": (12, 4), "next": (16, 8)}
COUNTERS = {"next": (0, 8), "previous": (8, 8), "low": (16, 8), "segment": (24, 4), "order": (28, 4), "count": (32, 4)}


class Image:
    """img["used"] is a field of the global state, img["next", t] one of tier t, in its segment's header if it stands there."""

    def __init__(self, st, data):
        self.st, self.data = st, bytearray(data)

    def get(self, at, n):
        return int.from_bytes(self.data[at:at + n], "little")

    def put(self, at, n, v):
        self.data[at:at + n] = v.to_bytes(n, "little")

    def mains(self):
        return self["headers"] + self.st.segments * self.st.header

    def tiers(self):
        return self.st.segments + self["bulks"] * self.st.btiers

    def end(self):
        return self.mains() + self.st.segments * self.st.tier + self["bulks"] * self.st.bulk

    def tier_at(self, t):
        st = self.st
        if t <= st.segments:
            return self.mains() + (t - 1) * st.tier
        bulk, place = divmod(t - 1 - st.segments, st.btiers)
        return self.mains() + st.segments * st.tier + bulk * st.bulk + st.binner + place * st.tier

    def where(self, field):
        if isinstance(field, str):
            at, n = STATE[field]
            return self.st.g + at, n
        name, t = field
        if t <= self.st.segments and name in HEADER:
            at, n = HEADER[name]
            return self["headers"] + (t - 1) * self.st.header + at, n
        return self.own(field)

    def own(self, field):
        """A field of the tier's own counters."""
        at, n = COUNTERS[field[0]]
        return self.tier_at(field[1]) + self.st.lookup + at, n

    def __getitem__(self, field):
        return self.get(*self.where(field))

    def __setitem__(self, field, v):
        self.put(*self.where(field), v)

    def slot(self, t, j):
        return self.get(self.tier_at(t) + j * self.st.slot, self.st.slot)

    def set_slot(self, t, j, v):
        self.put(self.tier_at(t) + j * self.st.slot, self.st.slot, v)

    def full(self, t):
        return [j for j in range(self.st.slots) if self.slot(t, j)]

    def bit_at(self, t, i):
        return self.tier_at(t) + self.st.lookup + 64 + i // 8, 1 << i % 8

    def bit(self, t, i):
        at, b = self.bit_at(t, i)
        return self.data[at] & b != 0

    def set_bit(self, t, i, on):
        at, b = self.bit_at(t, i)
        self.data[at] = self.data[at] | b if on else self.data[at] & ~b

    def marked(self, t):
        return {i for i in range(self.st.chunks) if self.bit(t, i)}

    def lowest(self, t):
        return min(set(range(self.st.chunks + 1)) - self.marked(t))

    def chunk_at(self, t, i):
        return self.tier_at(t) + self.st.lookup + 64 + self.st.freelist + self.st.inner + i * self.st.chunk

    def follow(self, t):
        """The tiers from t on by next. For images whose chains are right."""
        while t:
            yield t
            t = self["next", t]


# ---- the check

class Broken(Exception):
    pass


def frame_faults(img):
    if len(img.data) < img.st.g + 33:
        return {"state"}
    faults = set()
    if img["headers"] < img.st.g + 33:
        faults.add("headers")
    if img.tiers() > 1024:
        faults.add("tiers")
    if img["size"] != img.end():
        faults.add("size")
    if img["size"] > len(img.data) or len(img.data) > LARGEST:
        faults.add("image length")
    return faults


def chains_of(img):
    """The faults, the segments' chains, the free chain."""
    st, faults, seen = img.st, set(), set()

    def follow(t, check):
        chain = []
        while t:
            if not st.segments < t <= img.tiers():
                faults.add("not an extra tier")
                break
            if t in seen:
                faults.add("tier twice")
                break
            seen.add(t)
            check(t, len(chain))
            chain.append(t)
            t = img["next", t]
        return chain

    def stands(t, **fields):
        faults.update(f for f, v in fields.items() if img[f, t] != v)

    chains = []
    for s in range(st.segments):
        stands(s + 1, previous=0, segment=s, order=0)
        chain = [s + 1]

        def check(t, place):
            stands(t, previous=chain[-1], segment=s, order=place + 1)
            chain.append(t)

        follow(img["next", s + 1], check)
        chains.append(chain)
    free = follow(img["free"], lambda t, place: None)
    if len(seen) != img.tiers() - st.segments:
        faults.add("tier in no chain")
    if img["used"] != sum(len(chain) - 1 for chain in chains):
        faults.add("used")
    return faults, chains, free


def read_length(img, at, end):
    n = shift = 0
    while at < end:
        b = img.data[at]
        n |= (b & 127) << shift
        shift += 7
        at += 1
        if b < 128:
            if b == 0 and shift > 7:
                raise Broken("shortest form")
            return n, at
    raise Broken("range")


def read_entry(img, t, first):
    """Key, value length and size of the entry at a chunk."""
    at, end = img.chunk_at(t, first), img.chunk_at(t, img.st.chunks)
    k, key_at = read_length(img, at, end)
    if not 1 <= k <= 1024:
        raise Broken("key length")
    v, value_at = read_length(img, min(key_at + k, end), end)
    if v > 65535:
        raise Broken("value length")
    if value_at + v > end:
        raise Broken("range")
    return bytes(img.data[key_at:key_at + k]), v, value_at + v - at


def entry_at(img, s, t, j, faults):
    """The row of a full slot, and its key, or None."""
    st, v = img.st, img.slot(t, j)
    lookup, first = v % 2**st.kbits, v >> st.kbits & 2**st.vbits - 1
    if v >> (st.kbits + st.vbits):
        faults.add("higher bits")
    start = lookup % st.slots
    if any(img.slot(t, (start + i) % st.slots) == 0 for i in range((j - start) % st.slots)):
        faults.add("gap")
    if first >= st.chunks:
        faults.add("first chunk")
        return None
    try:
        key, value, size = read_entry(img, t, first)
    except Broken as broken:
        faults.add(broken.args[0])
        return None
    if st.cover(size) > st.most:
        faults.add("most chunks")
    if st.segment(key) != s:
        faults.add("segment of key")
    if st.lookup_key(key) != lookup:
        faults.add("lookup key")
    return key, (s, t, j, first, st.cover(size), len(key), value)


def entries_of(img, chains):
    """The faults, and the rows of all live entries."""
    faults, rows = set(), []
    for s, chain in enumerate(chains):
        keys = []
        for t in chain:
            if len(img.full(t)) == img.st.slots:
                faults.add("no empty slot")
            found = [entry_at(img, s, t, j, faults) for j in img.full(t)]
            keys += [e[0] for e in found if e]
            rows += [e[1] for e in found if e]
        if len(set(keys)) < len(keys):
            faults.add("key twice")
    return faults, rows


def chunk_faults(img, chains, free, rows):
    faults = set()
    for t in sum(chains, []):
        covered = [i for row in rows if row[1] == t for i in range(row[3], row[3] + row[4])]
        if len(set(covered)) < len(covered):
            faults.add("shared chunk")
        if img.marked(t) - set(covered):
            faults.add("bit of no entry")
        if set(covered) - img.marked(t):
            faults.add("bit clear")
        if img["count", t] != len(img.full(t)):
            faults.add("count")
        low, lowest = img["low", t], img.lowest(t)
        if low > lowest or (lowest == img.st.chunks and low != lowest):
            faults.add("low")
    for t in free:
        if img.full(t):
            faults.add("free tier's slot")
        if img.marked(t):
            faults.add("free tier's bit")
    return faults


def check_image(st, data):
    """Number, faults of that stage, rows, counts."""
    img = Image(st, data)
    faults = frame_faults(img)
    if faults:
        return 4, faults, None, None
    faults, chains, free = chains_of(img)
    if faults:
        return 5, faults, None, None
    faults, rows = entries_of(img, chains)
    if faults:
        return 6, faults, None, None
    faults = chunk_faults(img, chains, free, rows)
    if faults:
        return 7, faults, None, None
    chained = sum(chains, [])
    return 0, set(), rows, (len(rows), sum(len(img.marked(t)) for t in chained), len(chained), len(free))


def check_input(data):
    """The same for the lister's whole input."""
    block, rest = data[:71], data[71:]
    if len(block) < 71:
        return 2, {"early end"}, None, None
    if block[:3] != b"\0\x45\1":
        return 2, {"version" if block[:2] == b"\0\x45" else "length field"}, None, None
    st = Settings(*(int.from_bytes(block[at:at + 4], "big") for at in range(3, 71, 4)))
    if st.faults():
        return 3, st.faults(), None, None
    n = int.from_bytes(rest[:4], "big")
    if len(rest) < 4:
        return 4, {"early end"}, None, None
    if n > LIMIT:
        return 4, {"limit"}, None, None
    if len(rest) < 4 + n:
        return 4, {"early end"}, None, None
    return check_image(st, rest[4:4 + n])


def lister(data):
    """What the lister prints, and the faults."""
    number, faults, rows, counts = check_input(data)
    if number:
        return "refused %d\n" % number, faults
    lines = [" ".join(map(str, row)) for row in rows]
    return "\n".join(["segment tier slot chunk chunks key value", *lines, "entries %d chunks %d tiers %d free %d\n" % counts]), faults


# ---- images

def empty(st, bulks=1, headers=None, free=None, trailing=0, junk=None):
    """An image without entries, its extra tiers in the free chain in this order. With a junk number, what no rule names is junk."""
    headers = st.g + 33 if headers is None else headers
    size = headers + st.segments * (st.header + st.tier) + bulks * st.bulk
    n = size + trailing
    img = Image(st, bytes(n) if junk is None else random.Random(junk).randbytes(n))
    extra = list(range(st.segments + 1, st.segments + bulks * st.btiers + 1))
    free = extra if free is None else free
    assert sorted(free) == extra
    img["bulks"], img["free"], img["used"], img["headers"], img["size"] = bulks, (free + [0])[0], 0, headers, size
    for t in range(1, img.tiers() + 1):
        for j in range(st.slots):
            img.set_slot(t, j, 0)
        for i in range(st.chunks):
            img.set_bit(t, i, False)
    for t in range(1, st.segments + 1):
        fields = {"next": 0, "low": 0, "count": 0, "previous": 0, "segment": t - 1, "order": 0}
        for f, v in fields.items():
            img[f, t] = v
    for t, after in zip(free, free[1:] + [0]):
        img["next", t] = after
    return img


def length_bytes(n):
    out = []
    while n > 127:
        out.append(n & 127 | 128)
        n >>= 7
    return bytes(out + [n])


def entry_bytes(key, value):
    return length_bytes(len(key)) + key + length_bytes(len(value)) + value


def tidy(img, t):
    """The counters of a tier by its slots and bits."""
    img["count", t], img["low", t] = len(img.full(t)), img.lowest(t)


def place(img, t, j, first, key, value=b"", raw=None, lookup=None, high=0):
    """Puts an entry where one says, right in all but what one says, and the bits and counters with it."""
    st = img.st
    raw = entry_bytes(key, value) if raw is None else raw
    lookup = st.lookup_key(key) if lookup is None else lookup
    img.set_slot(t, j, lookup | first << st.kbits | high << (st.kbits + st.vbits))
    at = img.chunk_at(t, first)
    img.data[at:at + len(raw)] = raw
    for i in range(first, min(first + st.cover(len(raw)), st.chunks)):
        img.set_bit(t, i, True)
    tidy(img, t)


def find(img, key):
    """Tier and slot of a key, or None."""
    for t in img.follow(img.st.segment(key) + 1):
        j = img.st.start(key)
        while v := img.slot(t, j):
            first = v >> img.st.kbits & 2**img.st.vbits - 1
            if read_entry(img, t, first)[0] == key:
                return t, j, first
            j = (j + 1) % img.st.slots
    return None


def remove(img, key):
    st = img.st
    t, hole, first = find(img, key)
    for i in range(first, first + st.cover(read_entry(img, t, first)[2])):
        img.set_bit(t, i, False)
    j = hole
    while v := img.slot(t, j := (j + 1) % st.slots):
        start = v % 2**st.kbits % st.slots
        if not 0 < (start - hole) % st.slots <= (j - hole) % st.slots:
            img.set_slot(t, hole, v)
            hole = j
    img.set_slot(t, hole, 0)
    tidy(img, t)


def run(img, t, need):
    """The lowest run of so many clear chunks, or None."""
    for i in range(img.st.chunks - need + 1):
        if not img.marked(t) & set(range(i, i + need)):
            return i
    return None


def take(img, s):
    """The first free tier joins the segment's chain."""
    chain = list(img.follow(s + 1))
    t = img["free"]
    assert t, "no free tier"
    img["free"] = img["next", t]
    img["used"] += 1
    img["next", chain[-1]] = t
    fields = {"next": 0, "previous": chain[-1], "low": 0, "segment": s, "order": len(chain), "count": 0}
    for f, v in fields.items():
        img[f, t] = v
    return t


def store(img, key, value=b""):
    """Answers the tier that took the entry."""
    st = img.st
    need = st.cover(len(entry_bytes(key, value)))
    assert 1 <= len(key) <= 1024 and len(value) <= 65535 and need <= st.most
    if find(img, key):
        remove(img, key)
    fits = [t for t in img.follow(st.segment(key) + 1) if len(img.full(t)) <= st.slots - 2 and run(img, t, need) is not None]
    t = fits[0] if fits else take(img, st.segment(key))
    j = st.start(key)
    while img.slot(t, j):
        j = (j + 1) % st.slots
    place(img, t, j, run(img, t, need), key, value)
    return t


def keys(st, segment=None, start=None, lookup=None, top=None):
    """Two-byte keys, in order, of a segment, start slot, lookup key or highest bit of the hash."""
    for n in range(65536):
        key = n.to_bytes(2, "big")
        if segment is not None and st.segment(key) != segment:
            continue
        if start is not None and st.start(key) != start:
            continue
        if lookup is not None and st.lookup_key(key) != lookup:
            continue
        if top is not None and xxh64(key) >> 63 != top:
            continue
        yield key


assert xxh64(b"") == 0xEF46DB3751D8E999
assert xxh64(b"abc") == 0x44BC2CF5AD770999
assert xxh64(b"Nobody inspects the spammish repetition") == 0xFBCEA83C8A378BF1
assert xxh64(b"Call me Ishmael. Some years ago--never mind how long precisely-") == 0x02A2E85470D6FD96

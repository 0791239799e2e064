"""Signatures of hashes alone (HSS over LMS and LM-OTS, RFC 8554, with SHA-256), by which a relay signs; and one signature for all texts of a turn. It is
written by the standard, apart from crates/lms, and tests compare the two. Run by itself it checks signatures that Bouncy Castle made, and prints `ok`."""
import hashlib
import struct
import sys
from pathlib import Path
from typing import NamedTuple

sha256 = hashlib.sha256
HASH = 32  # bytes
ID = 16
MOST_LEVELS = 8
MOST_HEIGHT = 12  # of a tree over texts
PUBLIC_KEY = 24 + HASH  # bytes of a tree's

# what stands behind a leaf's or a node's number in all that is hashed (section 7.1), above the numbers of all chains; D_TEXT is the standard's D_MESG
D_PBLK, D_TEXT, D_LEAF, D_INTR = 0x8080, 0x8181, 0x8282, 0x8383
# and in what is made from a seed for a leaf: the standard leaves these open, and implementations agree
RANDOMIZER, CHILD_SEED, CHILD_ID = 0xFFFD, 0xFFFE, 0xFFFF


class Chains(NamedTuple):
    """A type of one-time signatures (section 4.1): bits of a digit, how many digits a hash and its checksum have, and how far left the checksum stands."""

    bits: int
    count: int
    shift: int

    @property
    def last(self):
        return (1 << self.bits) - 1


CHAINS = {1: Chains(1, 265, 7), 2: Chains(2, 133, 6), 3: Chains(4, 67, 4), 4: Chains(8, 34, 0)}  # by their typecodes
HEIGHTS = {5: 5, 6: 10, 7: 15, 8: 20, 9: 25}  # of trees, by their typecodes (section 5.1)
CODES = {height: code for code, height in HEIGHTS.items()}
W4 = 3  # the typecode of a relay's one-time signatures


def front(identity, number, kind):
    return identity + struct.pack(">IH", number, kind)


def digits(chains, text_hash):
    """Where each chain is cut: the digits of a hash and of its checksum (section 4.4)."""
    split = lambda data: [byte >> place & chains.last for byte in data for place in range(8 - chains.bits, -1, -chains.bits)]
    of_hash = split(text_hash)
    checksum = sum(chains.last - digit for digit in of_hash) << chains.shift
    return (of_hash + split(struct.pack(">H", checksum)))[: chains.count]


def steps(start, value, first, end):
    """The value of the chain with that front, from one step to another (section 4.3)."""
    for number in range(first, end):
        value = sha256(start + bytes([number]) + value).digest()
    return value


class Tree:
    """A private key of one tree, all of whose secrets are made from a seed (appendix A). Its nodes are made once, when they are needed."""

    def __init__(self, lms, ots, identity, seed):
        self.lms, self.ots, self.identity, self.seed = lms, ots, identity, seed
        self.leaves, self.chains, self.made = 1 << HEIGHTS[lms], CHAINS[ots], None

    def secret(self, leaf, kind):
        return sha256(front(self.identity, leaf, kind) + b"\xff" + self.seed).digest()

    def child(self, lms, ots, leaf):
        """The tree below a leaf."""
        return Tree(lms, ots, self.secret(leaf, CHILD_ID)[:ID], self.secret(leaf, CHILD_SEED))

    def one_time_key(self, leaf):
        """Algorithm 1."""
        identity, seed, last = self.identity, self.seed, self.chains.last
        key = sha256(front(identity, leaf, D_PBLK))
        numbers = [bytes([number]) for number in range(last)]
        for chain in range(self.chains.count):
            start = front(identity, leaf, chain)
            value = sha256(start + b"\xff" + seed).digest()
            for number in numbers:
                value = sha256(start + number + value).digest()
            key.update(value)
        return key.digest()

    @property
    def nodes(self):
        """All nodes by their numbers, of which the root's is 1 (section 5.3)."""
        if self.made is None:
            nodes = [b""] * (2 * self.leaves)
            for leaf in range(self.leaves):
                number = self.leaves + leaf
                nodes[number] = sha256(front(self.identity, number, D_LEAF) + self.one_time_key(leaf)).digest()
            for number in range(self.leaves - 1, 0, -1):
                nodes[number] = sha256(front(self.identity, number, D_INTR) + nodes[2 * number] + nodes[2 * number + 1]).digest()
            self.made = nodes
        return self.made

    @property
    def public_key(self):
        return struct.pack(">II", self.lms, self.ots) + self.identity + self.nodes[1]

    def sign(self, leaf, text):
        """The signature of a text by a leaf, which may sign one text only (algorithms 3 and 5)."""
        if not 0 <= leaf < self.leaves:
            raise IndexError(f"the tree has no leaf {leaf}")
        randomizer = self.secret(leaf, RANDOMIZER)
        text_hash = sha256(front(self.identity, leaf, D_TEXT) + randomizer + text).digest()
        values = [
            steps(front(self.identity, leaf, chain), self.secret(leaf, chain), 0, digit) for chain, digit in enumerate(digits(self.chains, text_hash))
        ]
        path = [self.nodes[self.leaves + leaf >> level ^ 1] for level in range(HEIGHTS[self.lms])]
        return struct.pack(">II", leaf, self.ots) + randomizer + b"".join(values) + struct.pack(">I", self.lms) + b"".join(path)


class Key:
    """A private key of one to eight levels (section 6), with trees of these heights. The trees that signed last are kept: where the next index is of the same
    trees, it costs little."""

    def __init__(self, identity, seed, heights, ots=W4):
        if len(identity) != ID or len(seed) != HASH or not 1 <= len(heights) <= MOST_LEVELS or not all(height in CODES for height in heights):
            raise ValueError(f"no key has {len(identity)} and {len(seed)} bytes, and heights {heights}")
        first, *self.below = heights
        self.ots, self.first = ots, Tree(CODES[first], ots, identity, seed)
        self.kept = []  # of each level below: its leaf above it, its tree, and the signature of that tree's public key, and that key

    @property
    def public_key(self):
        return struct.pack(">I", len(self.below) + 1) + self.first.public_key

    @property
    def indexes(self):
        """How many texts it may sign."""
        return self.first.leaves << sum(self.below)

    def sign(self, index, text):
        """The signature of a text by an index, which may sign one text only (algorithm 8)."""
        if not 0 <= index < self.indexes:
            raise IndexError(f"the key has no index {index}")
        tree, heads = self.first, []
        for level, height in enumerate(self.below):
            leaf, index = divmod(index, 1 << sum(self.below[level:]))
            if len(self.kept) <= level or self.kept[level][0] != leaf:
                below = tree.child(CODES[height], self.ots, leaf)
                self.kept[level:] = [(leaf, below, tree.sign(leaf, below.public_key) + below.public_key)]
            _, tree, head = self.kept[level]
            heads.append(head)
        return struct.pack(">I", len(self.below)) + b"".join(heads) + tree.sign(index, text)


class Malformed(Exception):
    """Bytes that are no signature, or no public key."""


class Reader:
    """Takes bytes from the front."""

    def __init__(self, data):
        self.data = data

    def take(self, count):
        if len(self.data) < count:
            raise Malformed(f"{len(self.data)} bytes are left of {count}")
        taken, self.data = self.data[:count], self.data[count:]
        return taken

    def word(self):
        return struct.unpack(">I", self.take(4))[0]


def of_tree(public_key):
    """The parts of a tree's public key."""
    reader = Reader(public_key)
    lms, ots = reader.word(), reader.word()
    if lms not in HEIGHTS or ots not in CHAINS or len(public_key) != PUBLIC_KEY:
        raise Malformed("no public key of a tree")
    return lms, ots, reader.take(ID), reader.take(HASH)


def is_public_key(data):
    """Whether the bytes are a public key of one to eight levels."""
    reader = Reader(data)
    try:
        return 1 <= reader.word() <= MOST_LEVELS and bool(of_tree(reader.data))
    except Malformed:
        return False


def passes(public_key, text, reader):
    """Whether the next bytes are a signature of the text by that tree's public key (algorithms 4b and 6a)."""
    lms, ots, identity, root = of_tree(public_key)
    chains, leaf = CHAINS[ots], reader.word()
    if reader.word() != ots:
        raise Malformed("other one-time signatures")
    randomizer, values = reader.take(HASH), [reader.take(HASH) for _ in range(chains.count)]
    if reader.word() != lms or leaf >> HEIGHTS[lms]:
        raise Malformed("another tree, or no leaf of it")
    text_hash = sha256(front(identity, leaf, D_TEXT) + randomizer + text).digest()
    ends = [steps(front(identity, leaf, chain), values[chain], digit, chains.last) for chain, digit in enumerate(digits(chains, text_hash))]
    number = leaf + (1 << HEIGHTS[lms])
    node = sha256(front(identity, number, D_LEAF) + sha256(front(identity, leaf, D_PBLK) + b"".join(ends)).digest()).digest()
    for _ in range(HEIGHTS[lms]):
        sibling = reader.take(HASH)
        left, right = (sibling, node) if number % 2 else (node, sibling)
        number //= 2
        node = sha256(front(identity, number, D_INTR) + left + right).digest()
    return node == root


def verify_tree(public_key, text, signature):
    """Whether the bytes are a signature of the text by a tree's public key."""
    reader = Reader(signature)
    try:
        return passes(public_key, text, reader) and not reader.data
    except Malformed:
        return False


def verify(public_key, text, signature):
    """Whether the bytes are a signature of the text by a public key of one to eight levels (algorithm 9)."""
    reader, key = Reader(signature), Reader(public_key)
    try:
        levels, key = key.word(), key.data
        if not 1 <= levels <= MOST_LEVELS or reader.word() + 1 != levels:
            return False
        for _ in range(levels - 1):
            signed = Reader(reader.data)
            lms, ots, _, _ = of_tree(key)
            below = reader.take(8 + HASH * (1 + CHAINS[ots].count) + 4 + HASH * HEIGHTS[lms]) and reader.take(PUBLIC_KEY)
            if not passes(key, below, signed):
                return False
            key = below
        return verify_tree(key, text, reader.data)
    except Malformed:
        return False


# ---- one signature for all texts of a turn: that of the root of a tree over them, whose hashes begin as those of RFC 9162 section 2.1.1


def leaf_hash(text):
    return sha256(b"\0" + text).digest()


def node_hash(left, right):
    return sha256(b"\1" + left + right).digest()


def levels_over(texts):
    """The nodes over texts, from the leaves up to the root alone. Leaves that are missing are zeros."""
    height = max(len(texts) - 1, 0).bit_length()
    level = [leaf_hash(text) for text in texts] + [bytes(HASH)] * ((1 << height) - len(texts))
    levels = [level]
    while len(level) > 1:
        level = [node_hash(*level[place : place + 2]) for place in range(0, len(level), 2)]
        levels.append(level)
    return levels


def sign_texts(key, index, texts):
    """The signature of each text, by one index: its number and the tree's height, the siblings from its leaf up, and the key's signature of the root."""
    if not 1 <= len(texts) <= 1 << MOST_HEIGHT:
        raise ValueError(f"{len(texts)} texts are signed by no index")
    *below, (root,) = levels_over(texts)
    of_root = key.sign(index, root)
    path = lambda number: b"".join(level[number >> place ^ 1] for place, level in enumerate(below))
    return [struct.pack(">II", number, len(below)) + path(number) + of_root for number in range(len(texts))]


def verify_text(public_key, text, signature):
    """Whether the bytes are the signature of a text among those of a turn."""
    reader = Reader(signature)
    try:
        number, height = reader.word(), reader.word()
        if height > MOST_HEIGHT or number >> height:
            return False
        node = leaf_hash(text)
        for _ in range(height):
            sibling = reader.take(HASH)
            node = node_hash(sibling, node) if number % 2 else node_hash(node, sibling)
            number //= 2
        return verify(public_key, node, reader.data)
    except Malformed:
        return False


# ---- the self-test


def check_tree(lms, ots, identity, seed, leaf, text, public_key, signature, trees={}):
    """One of Bouncy Castle's signatures of one tree: it is made and passes, and no other."""
    of_key = lms, ots, identity, seed
    tree = trees.setdefault(of_key, Tree(int(lms), int(ots), identity, seed))
    assert tree.public_key == public_key and tree.sign(int(leaf), text) == signature
    check_refused(verify_tree, public_key, text, signature)


def check_levels(levels, identity, seed, index, text, public_key, signature, keys={}):
    """One of several levels, of which all have height 5; one-time signatures of the first have eight bits."""
    key = keys.setdefault(identity, Key(identity, seed, [5] * int(levels)))
    key.first.ots, key.first.chains = 4, CHAINS[4]
    assert key.public_key == public_key and key.sign(int(index), text) == signature
    check_refused(verify, public_key, text, signature)


def check_refused(passes, public_key, text, signature):
    assert passes(public_key, text, signature)
    assert not passes(public_key, text + b"x", signature)
    assert not passes(public_key, text, signature[:-1]) and not passes(public_key, text, signature + b"\0") and not passes(public_key, text, b"")
    for place in range(0, len(signature), max(1, len(signature) // 12)):
        other = bytearray(signature)
        other[place] ^= 1
        assert not passes(public_key, text, bytes(other)), place
    for place in range(0, len(public_key), 7):
        other = bytearray(public_key)
        other[place] ^= 1
        assert not passes(bytes(other), text, signature), place


def check_texts():
    key = Key(bytes(ID), bytes(HASH), [5, 5])
    for count in (1, 2, 3, 5, 8, 33):
        texts = [b"text %d" % number for number in range(count)]
        signed = sign_texts(key, count, texts)
        assert all(verify_text(key.public_key, text, signature) for text, signature in zip(texts, signed, strict=True))
        assert len({signature[8 + HASH * signature[7] :] for signature in signed}) == 1
    text, signature = texts[20], signed[20]
    path = 8 + 6 * HASH
    for other in (signed[19], signature[:path], b"", bytes(4) + signature[4:], b"\0\0\0\x54" + signature[4:], signature[:7] + b"\5" + signature[8:]):
        assert not verify_text(key.public_key, text, other)
    for place in range(0, path + 64, 3):
        other = bytearray(signature)
        other[place] ^= 1
        assert not verify_text(key.public_key, text, bytes(other)), place
    # nothing that is missing or a node passes for a text
    assert not verify_text(key.public_key, b"", b"\0\0\0\x3f" + signature[4:])
    assert node_hash(leaf_hash(b"a"), leaf_hash(b"b")) == levels_over([b"a", b"b"])[1][0]
    assert levels_over([b"a", b"b", b"c"])[2][0] == node_hash(levels_over([b"a", b"b"])[1][0], node_hash(leaf_hash(b"c"), bytes(HASH)))


def main():
    vectors = Path(__file__).resolve().parents[2] / "crates/tests_lms/stdin"
    for line in vectors.read_text().splitlines():
        kind, *numbers = line.split()
        plain = 2 if kind == "lms" else 1
        data = lambda word: b"" if word == "-" else bytes.fromhex(word)
        identity, seed, index, text, public_key, signature = numbers[plain:]
        checks = check_tree if kind == "lms" else check_levels
        checks(*numbers[:plain], data(identity), data(seed), index, data(text), data(public_key), data(signature))
    check_texts()
    print("ok")


if __name__ == "__main__":
    sys.exit(main())

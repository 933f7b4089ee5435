"""GIFT-128 as its designers define it (IACR ePrint 2017/622), bit by bit, for the models beside this file. It shares nothing with the code.

A block is its number, and no word is ever packed but by `packed`, which document 01 defines.
"""

TABLE = [int(x, 16) for x in "1 a 4 c 6 f 3 9 2 d b 7 5 0 8 e".split()]


def bit(x, i):
    return x >> i & 1


def moved(i):
    return 4 * (i // 16) + 32 * ((3 * ((i % 16) // 4) + i % 4) % 4) + i % 4


def right(word, n):
    return (word >> n | word << 16 - n) % 2 ** 16


def pairs_of(key):
    """V and U of each round, in a row of eighty numbers."""
    k = [int.from_bytes(key[14 - 2 * i:16 - 2 * i], "big") for i in range(8)]
    row = []
    for _ in range(40):
        row += [k[1] << 16 | k[0], k[5] << 16 | k[4]]
        k = k[2:] + [right(k[0], 12), right(k[1], 2)]
    return row


def masks_of(row):
    """What each round xors to the block, by V and U of each in a row: their bits, b127 and the constant."""
    c = 0
    masks = []
    for v, u in zip(row[::2], row[1::2]):
        c = c << 1 & 0x3F | bit(c, 5) ^ bit(c, 4) ^ 1
        mask = 1 << 127
        for i in range(32):
            mask ^= bit(u, i) << 4 * i + 2 ^ bit(v, i) << 4 * i + 1
        for i in range(6):
            mask ^= bit(c, i) << 4 * i + 3
        masks.append(mask)
    return masks


def rounds_of(key):
    return masks_of(pairs_of(key))


# ---- any eighty words

def arranged(k, word):
    """A word as it is kept k rounds into a quintuple: its bit i is that of the place which bit 3 of nibble i reaches in k rounds."""
    def place(i):
        for _ in range(k):
            i = moved(4 * i + 3) // 4
        return i
    return sum(bit(word, place(i)) << i for i in range(32))


def words_of(row):
    """The eighty words that stand for the pairs of a row: word i is used in round i // 2 + 1, which is round i // 2 % 5 + 1 of its quintuple."""
    return [arranged(i // 2 % 5 + 1, x) for i, x in enumerate(row)]


def row_of(words):
    """The pairs that eighty words stand for: what is kept k rounds in is itself again after 5 - k more."""
    return [arranged(4 - i // 2 % 5, w) for i, w in enumerate(words)]


def round_done(x, mask):
    y = sum(TABLE[x >> 4 * n & 15] << 4 * n for n in range(32))
    return sum(bit(y, i) << moved(i) for i in range(128)) ^ mask


def round_undone(x, mask):
    x ^= mask
    y = sum(bit(x, moved(i)) << i for i in range(128))
    return sum(TABLE.index(y >> 4 * n & 15) << 4 * n for n in range(32))


def packed(x):
    return [sum(bit(x, 4 * i + j) << i for i in range(32)) for j in range(4)]


def number(block, order=0):
    """The block that sixteen bytes are. In order 0 they are one number, in order 1 four words, word j of bytes 4j to 4j+3 (2026-09)."""
    if order == 0:
        return int.from_bytes(block, "big")
    words = [int.from_bytes(block[4 * j:4 * j + 4], "big") for j in range(4)]
    return sum(bit(words[j], i) << 4 * i + j for i in range(32) for j in range(4))


def block(x, order=0):
    if order == 0:
        return x.to_bytes(16, "big")
    return b"".join(word.to_bytes(4, "big") for word in packed(x))


def done(x, masks):
    for mask in masks:
        x = round_done(x, mask)
    return x


def undone(x, masks):
    for mask in reversed(masks):
        x = round_undone(x, mask)
    return x


def encrypted(key, plain, rounds=40, order=0):
    return block(done(number(plain, order), rounds_of(key)[:rounds]), order)


def decrypted(key, secret, order=0):
    return block(undone(number(secret, order), rounds_of(key)), order)


def checked():
    """What is known of the cipher by other means: document 01's small facts, and the designers' vectors."""
    assert [TABLE[x] for x in (0, 8, 13, 15)] == [1, 2, 0, 14]
    assert [moved(i) for i in (0, 1, 2, 3, 4, 5, 16, 127)] == [0, 33, 66, 99, 96, 1, 4, 31]
    assert packed(1) == [1, 0, 0, 0] and packed(2) == [0, 1, 0, 0] and packed(1 << 127) == [0, 0, 0, 1 << 31]
    assert encrypted(bytes(16), bytes(16), 1).hex() == "91" + 14 * "11" + "19"
    vectors = """00000000000000000000000000000000 00000000000000000000000000000000 cd0bd738388ad3f668b15a36ceb6ff92
        fedcba9876543210fedcba9876543210 fedcba9876543210fedcba9876543210 8422241a6dbf5a9346af468409ee0152
        d0f5c59a7700d3e799028fa9f90ad837 e39c141fa57dba43f08a85b6a91f86c1 13ede67cbdcc3dbf400a62d6977265ea"""
    counted = bytes(range(16))
    assert pairs_of(counted)[:6] == [0x0c0d0e0f, 0x04050607, 0x08090a0b, 0x00010203, 0x04050607, 0x4303e0f0]
    assert row_of(words_of(pairs_of(counted))) == pairs_of(counted) and words_of(row_of(pairs_of(counted))) == pairs_of(counted)
    for line in vectors.splitlines():
        key, plain, secret = (bytes.fromhex(x) for x in line.split())
        assert encrypted(key, plain) == secret and decrypted(key, secret) == plain


checked()

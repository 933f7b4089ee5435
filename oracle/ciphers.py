"""Two ciphers of 128 bits for the models of modes of operation, each a function from block to block.

GIFT-128 is cipher_model.py's; the table here only joins its two steps, a nibble at a time. AES-128 (FIPS 197) is here since the standards' vectors are over it.
"""
from cipher_model import TABLE, bit, block, moved, number, rounds_of


def xor(a, b):
    return bytes(x ^ y for x, y in zip(a, b))


JOINED = [[sum(bit(TABLE[x], j) << moved(4 * n + j) for j in range(4)) for x in range(16)] for n in range(32)]


def gift(key):
    masks = rounds_of(key)

    def cipher(plain):
        x = number(plain)
        for mask in masks:
            x = sum(JOINED[n][x >> 4 * n & 15] for n in range(32)) ^ mask
        return block(x)
    return cipher


def times(a, b):
    """The product in the field of FIPS 197."""
    p = 0
    for i in range(8):
        p ^= a << i if b >> i & 1 else 0
    for i in range(14, 7, -1):
        p ^= 0x11B << i - 8 if p >> i & 1 else 0
    return p


def box(x):
    y = next((y for y in range(256) if times(x, y) == 1), 0)
    return y ^ 0x63 ^ ((y << 1 | y >> 7) & 255) ^ ((y << 2 | y >> 6) & 255) ^ ((y << 3 | y >> 5) & 255) ^ ((y << 4 | y >> 4) & 255)


BOX = [box(x) for x in range(256)]


def aes(key):
    w = [key[4 * i:4 * i + 4] for i in range(4)]
    power = 1
    for i in range(4, 44):
        t = w[i - 1]
        if i % 4 == 0:
            t = xor(bytes(BOX[x] for x in t[1:] + t[:1]), bytes([power, 0, 0, 0]))
            power = times(power, 2)
        w.append(xor(w[i - 4], t))
    keys = [b"".join(w[4 * r:4 * r + 4]) for r in range(11)]

    def cipher(plain):
        s = xor(plain, keys[0])
        for r in range(1, 11):
            s = bytes(BOX[s[(5 * i) % 16]] for i in range(16))
            if r < 10:
                s = bytes(times(2, s[i]) ^ times(3, s[i // 4 * 4 + (i + 1) % 4]) ^ s[i // 4 * 4 + (i + 2) % 4] ^ s[i // 4 * 4 + (i + 3) % 4] for i in range(16))
            s = xor(s, keys[r])
        return s
    return cipher

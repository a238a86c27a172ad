"""AES-128 of FIPS 197 and AES-CMAC of RFC 4493 in plain Python."""


def double(x):
    """Twice x in the field of FIPS 197."""
    return (x << 1) ^ (0x11B if x & 0x80 else 0)


def times(x, y):
    product = 0
    while y:
        product, x, y = product ^ (x if y & 1 else 0), double(x), y >> 1
    return product


def substitute(x):
    """An entry of the substitution table by its rule."""
    inverse = next((y for y in range(256) if times(x, y) == 1), 0)
    turned = inverse | inverse << 8
    return (inverse ^ turned >> 4 ^ turned >> 5 ^ turned >> 6 ^ turned >> 7 ^ 0x63) & 0xFF


SBOX = [substitute(x) for x in range(256)]
TWICE = [double(x) for x in range(256)]


def expand(key):
    """The eleven round keys."""
    words, constant = [list(key[4 * k : 4 * k + 4]) for k in range(4)], 1
    for k in range(4, 44):
        word = words[k - 1]
        if k % 4 == 0:
            word = [SBOX[b] for b in word[1:] + word[:1]]
            word[0] ^= constant
            constant = double(constant)
        words.append([a ^ b for a, b in zip(words[k - 4], word)])
    return [sum(words[4 * r : 4 * r + 4], []) for r in range(11)]


def mix(a, b, c, d):
    """A column of MixColumns."""
    every = a ^ b ^ c ^ d
    return [a ^ every ^ TWICE[a ^ b], b ^ every ^ TWICE[b ^ c], c ^ every ^ TWICE[c ^ d], d ^ every ^ TWICE[d ^ a]]


class Aes:
    """FIPS 197 under one key, and how many blocks were encrypted."""

    def __init__(self, key):
        self.keys, self.calls = expand(key), 0

    def encrypt(self, block):
        self.calls += 1
        state = [a ^ b for a, b in zip(block, self.keys[0])]
        for number in range(1, 11):
            state = [SBOX[state[(k + 4 * (k % 4)) % 16]] for k in range(16)]
            if number < 10:
                state = sum((mix(*state[k : k + 4]) for k in (0, 4, 8, 12)), [])
            state = [a ^ b for a, b in zip(state, self.keys[number])]
        return state


class Cmac:
    """RFC 4493 under one key, and how many AES calls its subkeys and tags took. Where it is to remember, a message that comes again is
    not computed again, and counts the calls that it took first."""

    def __init__(self, key, remember=False):
        self.aes, self.remember, self.made = Aes(key), remember, {}
        self.subkeys = [self.double(self.aes.encrypt(bytes(16)))]
        self.subkeys.append(self.double(self.subkeys[0]))
        self.calls = self.aes.calls

    @staticmethod
    def double(block):
        number = int.from_bytes(bytes(block), "big") << 1
        return ((number & (1 << 128) - 1) ^ (0x87 if number >> 128 else 0)).to_bytes(16, "big")

    def tag(self, message):
        if message not in self.made or not self.remember:
            before = self.aes.calls
            self.made[message] = self.compute(message), self.aes.calls - before
        tag, calls = self.made[message]
        self.calls += calls
        return tag

    def compute(self, message):
        cut = 16 * max(0, (len(message) - 1) // 16)
        last, subkey = message[cut:], self.subkeys[0]
        if len(last) < 16:
            last, subkey = (last + b"\x80").ljust(16, b"\0"), self.subkeys[1]
        state = bytes(16)
        for k in range(0, cut, 16):
            state = self.aes.encrypt([a ^ b for a, b in zip(state, message[k : k + 16])])
        return bytes(self.aes.encrypt([a ^ b ^ c for a, b, c in zip(state, last, subkey)]))

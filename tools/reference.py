#!/usr/bin/env python3
"""An independent reference for the known-answer program `vectors`.

It is written from the public standards alone: AES-256 from FIPS 197, Magma
from RFC 8891, the ACPKM renewal of a key from RFC 8645, section 6.2.1.
docs/VECTORS.md describes the requests and the answers.

    python3 tools/reference.py < requests > answers
    python3 tools/reference.py --published tools/published.txt

The first form answers each line of the input.  The second form checks that
the reference gives the answers that the standards publish.  Python 3.6 or
later will do, with nothing but the standard library.  The reference is slow
and its running time depends on the keys: it is for checking answers, not for
keeping secrets.
"""

import sys

KEY_LENGTH = 32
LONGEST_LINE = 4096
LARGEST_NUMBER = 2**32 - 1
MOST_RENEWALS = 4096


def xor(left, right):
    """The bitwise sum of two strings of bytes of the same length."""
    return bytes(a ^ b for a, b in zip(left, right))


def pieces(data, length):
    """The string of bytes cut into pieces of the given length."""
    return [data[i:i + length] for i in range(0, len(data), length)]


# AES-256: FIPS 197.

def multiply(a, b):
    """The product of two bytes as polynomials modulo x^8+x^4+x^3+x+1 (4.2)."""
    product = 0
    while b:
        if b & 1:
            product ^= a
        a <<= 1
        if a & 0x100:
            a ^= 0x11B
        b >>= 1
    return product


def inverse(a):
    """The byte whose product with `a` is 1; for 0 it is 0 (5.1.1)."""
    return next((b for b in range(256) if multiply(a, b) == 1), 0)


def rotate_byte(a, count):
    """The byte rotated left by `count` bits."""
    return (a << count | a >> (8 - count)) & 0xFF


def substitute(a):
    """The S-box: the inverse, then the affine transformation (5.1.1)."""
    b = inverse(a)
    return (b ^ rotate_byte(b, 1) ^ rotate_byte(b, 2) ^ rotate_byte(b, 3)
            ^ rotate_byte(b, 4) ^ 0x63)


SBOX = bytes(substitute(a) for a in range(256))
INVERSE_SBOX = bytes(SBOX.index(a) for a in range(256))

# The first rows of the matrices of MixColumns and InvMixColumns; each further
# row is the one above it, rotated to the right by one place.
MIX = (0x02, 0x03, 0x01, 0x01)
INVERSE_MIX = (0x0E, 0x0B, 0x0D, 0x09)
PRODUCT = {factor: bytes(multiply(factor, a) for a in range(256))
           for factor in MIX + INVERSE_MIX}


def shift_rows(state, direction):
    """Row r of the state rotated by r places: left for 1, right for -1.

    Byte r + 4c of the state stands in row r and column c.
    """
    return bytes(state[r + 4 * ((c + direction * r) % 4)]
                 for c in range(4) for r in range(4))


def mix_columns(state, first_row):
    """Each column of the state times the matrix with the given first row."""
    mixed = bytearray()
    for column in pieces(state, 4):
        for r in range(4):
            total = 0
            for i in range(4):
                total ^= PRODUCT[first_row[(i - r) % 4]][column[i]]
            mixed.append(total)
    return bytes(mixed)


class Aes256:
    block_length = 16
    rounds = 14

    def __init__(self, key):
        """KeyExpansion: the words w0 .. w59, four to a round key (5.2)."""
        words = pieces(key, 4)
        round_constant = 0x01
        for i in range(8, 4 * (self.rounds + 1)):
            word = words[i - 1]
            if i % 8 == 0:
                word = (word[1:] + word[:1]).translate(SBOX)
                word = xor(word, bytes([round_constant, 0, 0, 0]))
                round_constant = multiply(round_constant, 0x02)
            elif i % 8 == 4:
                word = word.translate(SBOX)
            words.append(xor(words[i - 8], word))
        self.round_keys = pieces(b"".join(words), 16)

    def encipher(self, block):
        """Cipher (5.1)."""
        state = xor(block, self.round_keys[0])
        for i in range(1, self.rounds + 1):
            state = state.translate(SBOX)
            state = shift_rows(state, 1)
            if i < self.rounds:
                state = mix_columns(state, MIX)
            state = xor(state, self.round_keys[i])
        return state

    def decipher(self, block):
        """InvCipher: the inverse steps in the opposite order (5.3)."""
        state = block
        for i in range(self.rounds, 0, -1):
            state = xor(state, self.round_keys[i])
            if i < self.rounds:
                state = mix_columns(state, INVERSE_MIX)
            state = shift_rows(state, -1)
            state = state.translate(INVERSE_SBOX)
        return xor(state, self.round_keys[0])


# Magma: RFC 8891.

# Row i is the substitution Pi'_i of the nibble i, counted from the lowest (4.1).
NIBBLES = (
    (12, 4, 6, 2, 10, 5, 11, 9, 14, 8, 13, 7, 0, 3, 15, 1),
    (6, 8, 2, 3, 9, 10, 5, 12, 1, 14, 4, 7, 11, 13, 0, 15),
    (11, 3, 5, 8, 2, 15, 10, 13, 14, 1, 7, 4, 12, 9, 6, 0),
    (12, 8, 2, 1, 13, 4, 15, 6, 7, 0, 10, 5, 3, 14, 9, 11),
    (7, 15, 5, 10, 8, 1, 6, 13, 0, 9, 3, 14, 11, 4, 2, 12),
    (5, 13, 15, 6, 9, 2, 12, 10, 11, 7, 8, 1, 4, 3, 14, 0),
    (8, 14, 2, 5, 6, 9, 1, 12, 15, 4, 11, 0, 13, 10, 3, 7),
    (1, 7, 14, 13, 0, 5, 8, 3, 4, 15, 10, 6, 9, 12, 11, 2),
)


def substitute_nibbles(a):
    """The transformation t (4.2)."""
    return sum(row[a >> 4 * i & 0xF] << 4 * i for i, row in enumerate(NIBBLES))


def magma_round(key, a):
    """The transformation g[k] (4.2)."""
    b = substitute_nibbles((a + key) % 2**32)
    return (b << 11 | b >> 21) % 2**32


def magma_rounds(round_keys, block):
    """G[k] for each round key but the last, for which it is G*[k] (5.1)."""
    left = int.from_bytes(block[:4], "big")
    right = int.from_bytes(block[4:], "big")
    for key in round_keys[:-1]:
        left, right = right, magma_round(key, right) ^ left
    left ^= magma_round(round_keys[-1], right)
    return left.to_bytes(4, "big") + right.to_bytes(4, "big")


class Magma:
    block_length = 8

    def __init__(self, key):
        """K_1 .. K_8 three times, then K_8 .. K_1 (4.3)."""
        words = [int.from_bytes(piece, "big") for piece in pieces(key, 4)]
        self.round_keys = 3 * words + words[::-1]

    def encipher(self, block):
        return magma_rounds(self.round_keys, block)

    def decipher(self, block):
        return magma_rounds(self.round_keys[::-1], block)


# ACPKM: RFC 8645, section 6.2.1.

RENEWAL_CONSTANT = bytes(range(0x80, 0x80 + KEY_LENGTH))


def renewed_key(cipher_class, key):
    """E(D_1) | .. | E(D_J) under the old key; J blocks make a key exactly."""
    cipher = cipher_class(key)
    return b"".join(cipher.encipher(block)
                    for block in pieces(RENEWAL_CONSTANT, cipher.block_length))


# The words of a request.

class BadRequest(Exception):
    """A request that has no answer; the text tells what is wrong with it."""


CIPHERS = {b"aes256": Aes256, b"magma": Magma}


def read_cipher(word):
    if word not in CIPHERS:
        raise BadRequest("unknown cipher")
    return CIPHERS[word]


def read_hexadecimal(word):
    if len(word) % 2 or any(c not in b"0123456789ABCDEFabcdef" for c in word):
        raise BadRequest("bad hexadecimal")
    return bytes.fromhex(word.decode("ascii"))


def read_key(word):
    key = read_hexadecimal(word)
    if len(key) != KEY_LENGTH:
        raise BadRequest("wrong key length")
    return key


def read_block(word, length):
    block = read_hexadecimal(word)
    if len(block) != length:
        raise BadRequest("wrong block length")
    return block


def read_number(word, most):
    if not word or any(c not in b"0123456789" for c in word):
        raise BadRequest("bad number")
    number = int(word)
    if number > LARGEST_NUMBER:
        raise BadRequest("bad number")
    if number > most:
        raise BadRequest("number out of range")
    return number


def hexadecimal(data):
    return data.hex().upper()


# The requests.  A handler takes the words after the first.

def read_cipher_and_block(cipher_word, key_word, block_word):
    cipher_class = read_cipher(cipher_word)
    cipher = cipher_class(read_key(key_word))
    return cipher, read_block(block_word, cipher.block_length)


def answer_encipher(*words):
    cipher, block = read_cipher_and_block(*words)
    return hexadecimal(cipher.encipher(block))


def answer_decipher(*words):
    cipher, block = read_cipher_and_block(*words)
    return hexadecimal(cipher.decipher(block))


def answer_renew(cipher_word, key_word, times_word):
    cipher_class = read_cipher(cipher_word)
    key = read_key(key_word)
    for _ in range(read_number(times_word, MOST_RENEWALS)):
        key = renewed_key(cipher_class, key)
    return hexadecimal(key)


# The first word of a request, the number of all its words, its handler.
REQUESTS = {
    b"encipher": (4, answer_encipher),
    b"decipher": (4, answer_decipher),
    b"renew": (4, answer_renew),
}


def checked_answer(line):
    """The answer to a request, or the exception BadRequest."""
    if len(line) > LONGEST_LINE:
        raise BadRequest("line too long")
    words = line.split(b" ")
    if words[0] not in REQUESTS:
        raise BadRequest("unknown request")
    count, handler = REQUESTS[words[0]]
    if len(words) != count:
        raise BadRequest("wrong number of words")
    return handler(*words[1:])


def answer(line):
    """The line that answers a line (bytes), both without the final 0A."""
    try:
        return checked_answer(line)
    except BadRequest as fault:
        return "error: " + str(fault)


def lines_of(data):
    """The lines of the input; a final 0A starts no further line."""
    lines = data.split(b"\n")
    return lines if lines[-1] else lines[:-1]


def answer_input():
    for line in lines_of(sys.stdin.buffer.read()):
        sys.stdout.write(answer(line) + "\n")
    return 0


# The published answers.

def read_published(path):
    """The pairs (request, answer) of a file of published answers.

    A line without ` => ` becomes a request with an empty answer, which the
    reference never gives.
    """
    with open(path, "rb") as file:
        lines = lines_of(file.read())
    return [line.partition(b" => ")[::2] for line in lines
            if not line.startswith(b"#")]


def check_published(path):
    """Compares the reference with a file of published answers."""
    published = read_published(path)
    if not published:
        print(f"{path} holds no published answer")
        return 1
    differences = 0
    for request, expected in published:
        given = answer(request)
        if given.encode("ascii") != expected:
            differences += 1
            print(f"request:   {request.decode('ascii', 'replace')}")
            print(f"published: {expected.decode('ascii', 'replace')}")
            print(f"reference: {given}")
    if differences:
        print(f"{differences} of {len(published)} published answers differ")
        return 1
    print(f"{len(published)} published answers agree")
    return 0


def main(arguments):
    if not arguments:
        return answer_input()
    if len(arguments) == 2 and arguments[0] == "--published":
        return check_published(arguments[1])
    sys.exit("usage: reference.py [--published FILE]")


if __name__ == "__main__":
    sys.exit(main(sys.argv[1:]))

#!/usr/bin/env python3
"""Prints the requests for the known-answer program `vectors`.

    python3 tools/make_vectors.py > crates/vectors/stdin
    python3 tools/reference.py < crates/vectors/stdin > crates/vectors/stdout

First come the requests of tools/published.txt, then further good requests,
then lines at the limits of the format and past them.  The output is the same
at every run; its last line has no 0A.
"""

import os
import sys

sys.dont_write_bytecode = True

import reference

PUBLISHED = os.path.join(os.path.dirname(os.path.abspath(__file__)),
                         "published.txt")
BLOCK_LENGTHS = {b"aes256": 16, b"magma": 8}


def line(*words):
    """A request made of words; a number stands for its decimal digits."""
    return b" ".join(b"%d" % word if isinstance(word, int) else word
                     for word in words)


def pseudorandom():
    """Endless bytes: the highest of x <- 1664525 x + 1013904223 mod 2^32."""
    x = 1
    while True:
        x = (1664525 * x + 1013904223) % 2**32
        yield x >> 24


SOURCE = pseudorandom()


def random_bytes(length):
    return bytes(next(SOURCE) for _ in range(length))


def single_bit(length, bit):
    """All zeros but for one bit, counted from the first, highest one."""
    return (1 << (8 * length - 1 - bit)).to_bytes(length, "big")


def in_capitals(data):
    return data.hex().upper().encode()


def in_small_letters(data):
    return data.hex().encode()


def in_mixed_letters(data):
    digits = data.hex()
    return "".join(digits[i].upper() if i % 3 else digits[i]
                   for i in range(len(digits))).encode()


STYLES = (in_capitals, in_small_letters, in_mixed_letters)


# Good requests.

def published_requests():
    return [request for request, _ in reference.read_published(PUBLISHED)]


def keys_and_blocks(length):
    """24 pairs of a key and a block of the given length."""
    zero_key, zero_block = bytes(32), bytes(length)
    full_key, full_block = b"\xFF" * 32, b"\xFF" * length
    pairs = [(zero_key, zero_block), (zero_key, full_block),
             (full_key, zero_block), (full_key, full_block),
             (bytes(range(32)), bytes(range(length))),
             (bytes(range(0xE0, 0x100)), bytes(range(0x80, 0x80 + length)))]
    for bit in (0, 31, 127, 255):
        pairs.append((single_bit(32, bit), zero_block))
    for bit in (0, 31, 4 * length, 8 * length - 1):
        pairs.append((zero_key, single_bit(length, bit)))
    while len(pairs) < 24:
        pairs.append((random_bytes(32), random_bytes(length)))
    return pairs


def block_requests(cipher):
    """Each pair enciphered, and the answer deciphered back."""
    lines = []
    for i, (key, block) in enumerate(keys_and_blocks(BLOCK_LENGTHS[cipher])):
        style, other_style = STYLES[i % 3], STYLES[(i + 1) % 3]
        lines.append(line(b"encipher", cipher, style(key), style(block)))
        answer = bytes.fromhex(reference.answer(lines[-1]))
        lines.append(line(b"decipher", cipher, other_style(key),
                          other_style(answer)))
    return lines


def renewals(cipher):
    return [line(b"renew", cipher, in_capitals(random_bytes(32)), times)
            for times in (0, 1, 2, 7, 100, 4096)]


# Lines at the limits of the format and past them.  KEY and BLOCK are good for
# aes256 and SHORT_BLOCK is good for magma.

KEY = in_capitals(bytes(range(0x40, 0x60)))
BLOCK = in_capitals(bytes(range(0xC0, 0xD0)))
SHORT_BLOCK = BLOCK[:16]
GOOD = line(b"encipher", b"aes256", KEY, BLOCK)

# Bytes that are no digits: the neighbours of the digits, a tab, a CR, a NUL, a
# digit with its highest bit set, the Arabic digit one in UTF-8.
NO_DIGITS = [b"/", b":", b"@", b"G", b"`", b"g", b"x", b"\t", b"\r", b"\0",
             b"\xB1", b"\xD9\xA1"]


def bad_first_words():
    rest = GOOD[len(b"encipher"):]
    first_words = [b"encypher", b"enciphe", b"encipherr", b"ENCIPHER",
                   b"Encipher", b"encipher\0", b"encipher\r", b"\xEF\xBB\xBFencipher",
                   b"e\xE9cipher", b" encipher", b"\0", b"#", b""]
    return ([b"", b"", b" ", b"  ", b"\r", b"\0", b"\xFF", b"nonsense", b"encipher\r"]
            + [word + rest for word in first_words]
            + [GOOD.replace(b" ", b"\t"), b"aes256 encipher nonsense"])


def bad_numbers_of_words():
    renewal = line(b"renew", b"magma", KEY, 1)
    return [b"encipher", b"decipher", b"renew", b"encipher ", b"renew  ",
            b"encipher nonsense", line(b"encipher", b"aes256"),
            line(b"encipher", b"aes256", KEY),
            line(b"decipher", b"magma", KEY), line(b"renew", b"aes256", KEY),
            line(GOOD, BLOCK), GOOD + b" ", GOOD + b"  ",
            GOOD.replace(b" ", b"  ", 1), GOOD.replace(b" ", b"  "),
            line(b"encipher", b"aes256", KEY, b"", BLOCK),
            line(renewal, 1), renewal + b" ", line(b"renew", b"", b"magma", KEY, 1)]


def bad_ciphers():
    ciphers = [b"", b"AES256", b"Aes256", b"aes128", b"aes25", b"aes2566",
               b"MAGMA", b"magma\0", b"magma\r", b"magm\xE1", b"aes256,magma"]
    return ([line(b"encipher", cipher, KEY, BLOCK) for cipher in ciphers]
            + [line(b"decipher", b"nonsense", KEY[1:], BLOCK),
               line(b"renew", b"nonsense", KEY, b"")])


def bad_keys():
    odd = [KEY[1:], KEY + b"0", b"0"]
    unread = ([KEY[:-len(byte)] + byte for byte in NO_DIGITS]
              + [b"G" + KEY[1:], b"0x" + KEY, KEY[:-4] + b"GG", b"\xFF" * 64])
    other_lengths = [KEY[:2 * n] for n in (31, 16, 1, 0)] + [KEY + b"00", KEY + KEY]
    keys = odd + unread + other_lengths
    return ([line(b"encipher", b"aes256", key, BLOCK) for key in keys]
            + [line(b"decipher", b"magma", key, SHORT_BLOCK) for key in odd]
            + [line(b"renew", b"magma", key, 1) for key in other_lengths]
            + [line(b"decipher", b"aes256", KEY[2:], b"G"),
               line(b"decipher", b"aes256", KEY[1:], BLOCK[2:]),
               line(b"renew", b"aes256", KEY[2:], b"nonsense")])


def bad_blocks():
    digits = BLOCK + b"D0"
    lengths = (0, 1, 7, 8, 9, 15, 16, 17)
    unread = [SHORT_BLOCK[:-len(byte)] + byte for byte in NO_DIGITS]
    return ([line(request, cipher, KEY, digits[:2 * length])
             for request in (b"encipher", b"decipher")
             for cipher in BLOCK_LENGTHS for length in lengths]
            + [line(b"decipher", b"magma", KEY, block) for block in unread]
            + [line(b"encipher", b"magma", KEY, SHORT_BLOCK[1:]),
               line(b"encipher", b"magma", KEY, SHORT_BLOCK + b"0"),
               line(b"encipher", b"aes256", KEY, b"G"), GOOD + b"\r",
               line(b"encipher", b"aes256", KEY, b"0x" + BLOCK)])


def bad_times():
    numbers = ([b"", b"+1", b"-1", b"1.0", b"1_0", b"1e1", b"0x1", b"A", b"1A"]
               + NO_DIGITS + [b"1" + byte for byte in NO_DIGITS]
               + [4097, 65536, 2**32 - 1, 2**32, 2**32 + 1, 2**64 + 1,
                  2**128 + 1, b"1234567890" * 4, b"000" + b"%d" % (2**32 + 2),
                  b"0004097", b"04096", b"007", b"0" * 40, b"0" * 39 + b"2"])
    return ([line(b"renew", b"aes256", KEY, number) for number in numbers]
            + [line(b"renew", b"magma", KEY, 4097)])


def renewal_of_length(cipher, length):
    """A request to renew three times whose line has the given length."""
    start = line(b"renew", cipher, KEY, b"")
    return start + b"0" * (length - len(start) - 1) + b"3"


LONG_LINES = [
    renewal_of_length(b"aes256", 4095), renewal_of_length(b"aes256", 4096),
    renewal_of_length(b"aes256", 4097), renewal_of_length(b"magma", 4096),
    renewal_of_length(b"magma", 4097), renewal_of_length(b"magma", 9000),
    b"x" * 4096, b"x" * 4097, b" " * 4096, b" " * 4097, b"x" * 9000,
    b"encipher" + b" " * 4088, b"encipher" + b" " * 4089,
    GOOD + b" " * (9000 - len(GOOD)), b"\0" * 8192, b"\xFF" * 8193,
]


def bad_lines():
    """The groups of such lines, a good request after each."""
    groups = [bad_first_words(), bad_numbers_of_words(), bad_ciphers(),
              bad_keys(), bad_blocks(), bad_times()]
    groups += [[long_line] for long_line in LONG_LINES]
    lines = []
    for i, group in enumerate(groups):
        lines += group
        lines.append(line(b"encipher", b"magma", KEY, b"%016X" % i))
    return lines


def main():
    lines = published_requests()
    for cipher in BLOCK_LENGTHS:
        lines += block_requests(cipher)
    for cipher in BLOCK_LENGTHS:
        lines += renewals(cipher)
    lines += bad_lines()
    lines.append(GOOD)
    sys.stdout.buffer.write(b"\n".join(lines))


if __name__ == "__main__":
    main()

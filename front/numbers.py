"""Whole numbers as plan files, traces and queries have them: groups of seven bits (document 01, "The plan file and its line")."""

import re

MOST = 4_294_967_295


def encode(numbers):
    """The bytes of numbers: low group first, top bit set on every byte but a number's last."""
    data = bytearray()
    for number in numbers:
        while number >= 128:
            data.append(128 + number % 128)
            number //= 128
        data.append(number)
    return bytes(data)


def decode(data):
    """The numbers of bytes that the proved program has read: it has refused what is none."""
    numbers, value, scale = [], 0, 1
    for byte in data:
        value += byte % 128 * scale
        scale *= 128
        if byte < 128:
            numbers.append(value)
            value, scale = 0, 1
    return numbers


def written(word):
    """The number that a word writes, None where it writes none. It may be over MOST."""
    return int(word.lstrip("0")[:11] or "0") if re.fullmatch("[0-9]+", word) else None


def listed(numbers):
    """A list as a query has it: how many numbers, then the numbers."""
    return [len(numbers), *numbers]

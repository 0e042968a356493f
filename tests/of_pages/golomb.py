"""docs/GOLOMB.md: Exp-Golomb codewords by their grammar."""

from __future__ import annotations

from fractions import Fraction

from judging import Page, judge, series


def golomb(number):
    """Returns the codeword of a number."""
    bits = format(number + 1, "b")
    return "0" * (len(bits) - 1) + bits


def as_word(bits):
    """Returns bits as a word of 32 bits, from the lowest one up."""
    return sum(int(bit) << place for place, bit in enumerate(bits))


def read(bits, size):
    """Returns the number whose codeword begins the bits, or the error, and how many bits were read."""
    zeros = 0
    for count, bit in enumerate(bits, 1):
        if bit == "1":
            tail = bits[count : count + zeros]
            if len(tail) < zeros:
                break
            number = int("1" + tail, 2) - 1
            return number if number < 2**size else "InvalidCodeword", count + zeros
        zeros += 1
        if zeros > size:
            return "InvalidCodeword", count
    return "OutOfCompressedData", len(bits)


def grammar(page):
    """Finds the rows of codewords, and the bits that they take."""
    for number in (0, 1, 2, 5, 7, 1000):
        bits, code = format(number + 1, "b"), golomb(number)
        page.row(number, bits, len(bits) - 1, code, len(code))
        judge(len(code) == 2 * (len(bits) - 1) + 1, f"the length of the codeword of {number}")
        judge(read(code + "101", 32) == (number, len(code)), f"the codeword of {number} is read")
    page.has("If `n + 1` has `k + 1` bits, the codeword has `2 * k + 1` bits")
    page.has("of probability about `1 / (2 * (n + 1)^2)`")
    total = sum(Fraction(1, 2 ** len(golomb(number))) for number in range(2**10 - 1))
    judge(total == 1 - Fraction(1, 2**10), "the room that the codewords take")
    page.has("over all numbers `2^-length` adds up to 1")


def one_after_another(page):
    """Finds the words of a queue and of a stack."""
    queue, numbers = "", (0, 5, 7)
    for number in numbers:
        places = [len(queue) + place for place, bit in enumerate(golomb(number)) if bit == "1"]
        queue += golomb(number)
        page.row(number, golomb(number), series(places), as_word(queue))
    shown = " ".join(map(golomb, numbers))
    page.has(f"The numbers 0, 5, 7 are the bits {shown}")
    page.has(f"printf '0 5 7\\n' | ./constriction golomb # prints {shown}, and then {as_word(queue)}")
    suffixes = [golomb(number)[::-1] for number in reversed(numbers)]
    page.has(
        f"For 0, 5, 7 the bits are {series(suffixes)} and the end bit: the word is {as_word(''.join(suffixes) + '1')}"
    )


def reading(page):
    """Finds the steps that read 5, and the reasons why reading stops."""
    code, zeros, number = golomb(5), 0, 0
    for count, bit in enumerate(code, 1):
        zeros += bit == "0" and not number
        number = 2 * number + int(bit)
        if count > 1:
            page.row(code[:count], zeros, number or "")
    page.has(f"The reader of {code} takes these steps:")
    page.has(f"The number is {number} - 1 = {number - 1}")
    greatest = golomb(2**8 - 1)
    judge(greatest == "0" * 8 + "1" + "0" * 8 and read(greatest, 8) == (255, 17), "the greatest number of 8 bits")
    page.has(f"For `b = 8`, 255 takes {len(greatest)} bits, and a queue with words of 32 bits holds it")
    page.has(f"as `[{as_word(greatest)}]`")
    judge(read("0" * 32, 8) == ("InvalidCodeword", 9), "too many zeros")
    judge(read("0" * 8 + "1" + "00010000", 8) == ("InvalidCodeword", 17), "a tail that is not all zeros")
    judge(read("", 8)[0] == read("001", 8)[0] == "OutOfCompressedData", "the end of the bits")
    page.has("`b + 1` zeros: for `b = 8`, after 9 bits of the word 0")


def test():
    """Judges the page."""
    page = Page("docs/GOLOMB.md")
    grammar(page)
    one_after_another(page)
    reading(page)
    page.rest("1", "2")

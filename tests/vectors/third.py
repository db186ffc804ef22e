#!/usr/bin/env python3
"""The job program a third time: reads a job from standard input and writes the rules' lines.

It shares nothing with the second program in host/rust, neither code nor method: rows are summed first, the three
sums interpolated by Newton's divided differences, the product kept whole and divided by long division, the row
check read off the remainder. It is the second opinion on the stored vectors, and on any number of generated jobs
(some minutes): jobs_against 1000 1 1 tests/vectors/third.py
"""

import sys

P = 15 * 2**27 + 1
MOST_BYTES = 37_944


class Refused(Exception):
    """Number and place."""


def refuse_if(bad, number, place):
    if bad:
        raise Refused(number, place)


def read_circuit(words):
    given = len(words)
    refuse_if(given < 3, 1, given)
    m, q, n = words[:3]
    refuse_if(m < 1 or m > 256, 2, 0)
    refuse_if(n < 1 or n > 256, 2, 2)
    refuse_if(q < 1 or q > n, 2, 1)
    at, matrices = 3, []
    for _ in "ABC":
        refuse_if(at == given, 1, given)
        count = words[at]
        refuse_if(count > 1024, 2, at)
        at += 1
        refuse_if(at + 3 * count > given, 1, given)
        entries, last = {}, (0, 0)
        for at in range(at, at + 3 * count, 3):
            row, column, value = words[at : at + 3]
            refuse_if(not (0 < row <= m and 0 < column <= n), 3, at)
            refuse_if(not 0 < value < P, 4, at)
            refuse_if((row, column) <= last, 5, at)
            last = row, column
            entries[last] = value
        at += 3 if count else 0
        matrices.append(entries)
    return m, q, n, matrices, at


def read_assignment(words, q, n):
    refuse_if(len(words) < n + 2, 6, 0)
    refuse_if(words[0] != q or words[q + 1] != n - q, 6, 0)
    values = [at for at in range(1, n + 2) if at != q + 1]
    for at in values:
        refuse_if(words[at] >= P or (at == 1 and words[at] != 1), 7, at)
    return [words[at] for at in values]


def evaluate(poly, x):
    """By Horner, from the top down."""
    result = 0
    for word in reversed(poly):
        result = (result * x + word) % P
    return result


def multiply(left, right):
    whole = [0] * (len(left) + len(right) - 1)
    for i, x in enumerate(left):
        for k, y in enumerate(right):
            whole[i + k] = (whole[i + k] + x * y) % P
    return whole


def newton(values):
    """The polynomial with values[i] at i + 1: divided differences, then nested from the top."""
    m, table = len(values), list(values)
    for level in range(1, m):
        for i in range(m - 1, level - 1, -1):
            table[i] = (table[i] - table[i - 1]) * pow(level, -1, P) % P
    poly = [0] * m
    for i in range(m - 1, -1, -1):
        for k in range(m - 1, 0, -1):
            poly[k] = (poly[k - 1] - (i + 1) * poly[k]) % P
        poly[0] = (table[i] - (i + 1) * poly[0]) % P
    return poly


def divide(dividend, divisor):
    """Quotient and remainder; the divisor's top word is 1."""
    top, rest = len(divisor) - 1, list(dividend)
    quotient = [0] * (len(rest) - top)
    for at in range(len(quotient) - 1, -1, -1):
        quotient[at] = rest[at + top]
        for k, word in enumerate(divisor):
            rest[at + k] = (rest[at + k] - quotient[at] * word) % P
    return quotient, rest[:top]


def rows(entries, m, w, columns):
    sums = [0] * m
    for (row, column), value in entries.items():
        if column in columns:
            sums[row - 1] = (sums[row - 1] + value * w[column - 1]) % P
    return sums


def run(data):
    refuse_if(len(data) > MOST_BYTES or len(data) % 4 != 0, 14, 0)
    words = [int.from_bytes(data[at : at + 4], "little") for at in range(0, len(data), 4)]
    m, q, n, matrices, at = read_circuit(words)
    w = read_assignment(words[at:], q, n)
    tail = words[at + n + 2 :]
    refuse_if(len(tail) != 6 or tail[0] != 3 or tail[4] != 1, 14, 0)
    blinders, s = tail[1:4], tail[5]
    for index, blinder in enumerate(blinders):
        refuse_if(blinder >= P, 12, index)
    refuse_if(s >= P or 1 <= s <= m, 11, 0)

    target = [1]
    for row in range(1, m + 1):
        target = multiply(target, [P - row, 1])
    whole = range(1, n + 1)
    blinded = []
    for entries, blinder in zip(matrices, blinders):
        plain = newton(rows(entries, m, w, whole)) + [0]
        blinded.append([(word + blinder * z) % P for word, z in zip(plain, target)])
    a, b, c = blinded
    excess = multiply(a, b)
    for k, word in enumerate(c):
        excess[k] = (excess[k] - word) % P
    quotient, remainder = divide(excess, target)
    # The remainder agrees with A'B' - C' at every row, and is no zero list exactly if one of them fails.
    broken = [row for row in range(1, m + 1) if evaluate(remainder, row)] if any(remainder) else []
    refuse_if(broken, 10, broken[0] if broken else 0)

    z = evaluate(target, s)
    private, public = range(q + 1, n + 1), range(1, q + 1)
    answers = [
        (evaluate(newton(rows(entries, m, w, private)), s) + blinder * z) % P
        for entries, blinder in zip(matrices, blinders)
    ]
    answers.append(evaluate(quotient, s))
    u, v, t = (
        answer + evaluate(newton(rows(entries, m, w, public)), s)
        for entries, answer in zip(matrices, answers)
    )
    check = 0 if (u * v - t - z * answers[3]) % P == 0 else 13
    return [[0, 0], target, quotient, answers, [check]]


def main():
    try:
        lines = run(sys.stdin.buffer.read())
    except Refused as refused:
        lines = [refused.args]
    for line in lines:
        print(*line)


if __name__ == "__main__":
    main()

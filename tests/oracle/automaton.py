#!/usr/bin/env python3
"""Prints the tables of crates/go_scan/src/automaton.rt, from the forms of words in crates/go_tree/specs/GoWords/Tokens.

Usage: tests/oracle/automaton.py [check]. With `check` it says instead whether the file's tables are these.

A state stands for a list of seven derivatives (Brzozowski, Derivatives of regular expressions), one of the form of each
kind of word. The gate doesn't run this program: what it writes is committed, and proved to know exactly the words.
"""
import os
import sys

FILE = os.path.join(os.path.dirname(os.path.abspath(__file__)), "../../crates/go_scan/src/automaton.rt")
BEGIN = "/// The class of each character of ASCII.\n"
MARK = 0xFEFF
OTHER = 0x80
NOTHING, EMPTY = ("nothing",), ("empty",)


# ---- forms


def one_of(letters):
    return ("one_of", frozenset(map(ord, letters)))


def other_than(letters):
    return ("other_than", frozenset(map(ord, letters)) | {0, MARK})


def in_turn(*forms):
    return forms[0] if len(forms) == 1 else ("both", forms[0], in_turn(*forms[1:]))


def any_of(*forms):
    return forms[0] if len(forms) == 1 else ("either", forms[0], any_of(*forms[1:]))


def many(form):
    return ("many", form)


def maybe(form):
    return any_of(form, EMPTY)


def exactly(word):
    return in_turn(*map(one_of, word))


OPERATORS = (
    "+ - * / % & | ^ << >> &^ += -= *= /= %= &= |= ^= <<= >>= &^= && || <- ++ -- == < > = ! ~ != <= >= := ... "
    "( [ { , . ) ] } ; :"
).split()
UNDERSCORE, POINT = one_of("_"), one_of(".")
DECIMAL, BINARY, OCTAL, HEX = one_of("0123456789"), one_of("01"), one_of("01234567"), one_of("0123456789ABCDEFabcdef")


def digits_of(digit):
    return in_turn(digit, many(in_turn(maybe(UNDERSCORE), digit)))


def zero_with(letters, rest):
    return in_turn(one_of("0"), one_of(letters), rest)


def exponent_after(letters):
    return in_turn(one_of(letters), maybe(one_of("+-")), digits_of(DECIMAL))


def integers():
    first = one_of("123456789")
    return any_of(
        any_of(one_of("0"), in_turn(first, maybe(in_turn(maybe(UNDERSCORE), digits_of(DECIMAL))))),
        zero_with("bB", in_turn(maybe(UNDERSCORE), digits_of(BINARY))),
        in_turn(one_of("0"), maybe(one_of("oO")), maybe(UNDERSCORE), digits_of(OCTAL)),
        zero_with("xX", in_turn(maybe(UNDERSCORE), digits_of(HEX))),
    )


def floats():
    digits, exponent, hex_digits = digits_of(DECIMAL), exponent_after("eE"), digits_of(HEX)
    mantissa = any_of(
        in_turn(maybe(UNDERSCORE), hex_digits, POINT, maybe(hex_digits)),
        in_turn(maybe(UNDERSCORE), hex_digits),
        in_turn(POINT, hex_digits),
    )
    decimal = any_of(
        in_turn(digits, POINT, maybe(digits), maybe(exponent)),
        in_turn(digits, exponent),
        in_turn(POINT, digits, maybe(exponent)),
    )
    return any_of(decimal, zero_with("xX", in_turn(mantissa, exponent_after("pP"))))


def unit_within(quote):
    nought, four_hex = one_of("0"), (HEX,) * 4
    four = any_of(
        in_turn(one_of("0123456789ABCEFabcef"), HEX, HEX, HEX), in_turn(one_of("Dd"), one_of("01234567"), HEX, HEX)
    )
    eight = any_of(
        in_turn(nought, nought, nought, nought, four),
        in_turn(nought, nought, nought, one_of("123456789ABCDEFabcdef"), in_turn(*four_hex)),
        in_turn(nought, nought, one_of("1"), nought, in_turn(*four_hex)),
    )
    escape = in_turn(
        one_of("\\"),
        any_of(
            one_of("abfnrtv\\" + quote),
            in_turn(one_of("0123"), OCTAL, OCTAL),
            in_turn(one_of("x"), HEX, HEX),
            in_turn(one_of("u"), four),
            in_turn(one_of("U"), eight),
        ),
    )
    return any_of(other_than("\n\\" + quote), escape)


def comments():
    star = one_of("*")
    stars = in_turn(star, many(star))
    line = in_turn(one_of("/"), one_of("/"), many(other_than("\n")))
    inside = many(any_of(other_than("*"), in_turn(stars, other_than("*/"))))
    return any_of(line, in_turn(one_of("/"), star, inside, stars, one_of("/")))


def kinds():
    imaginary = in_turn(any_of(digits_of(DECIMAL), integers(), floats()), one_of("i"))
    rune = in_turn(one_of("'"), unit_within("'"), one_of("'"))
    interpreted = in_turn(one_of('"'), many(unit_within('"')), one_of('"'))
    raw = in_turn(one_of("`"), many(other_than("`")), one_of("`"))
    operators = any_of(*map(exactly, OPERATORS))
    return (operators, integers(), floats(), imaginary, rune, any_of(interpreted, raw), comments())


# ---- derivatives


def nullable(form):
    match form:
        case ("empty",) | ("many", _):
            return True
        case ("both", f, g):
            return nullable(f) and nullable(g)
        case ("either", f, g):
            return nullable(f) or nullable(g)
    return False


def both_of(f, g):
    return NOTHING if f == NOTHING else g if f == EMPTY else ("both", f, g)


def either_of(f, g):
    return g if f == NOTHING else f if g == NOTHING else ("either", f, g)


def after(c, form):
    match form:
        case ("one_of", cs):
            return EMPTY if c in cs else NOTHING
        case ("other_than", cs):
            return EMPTY if c not in cs else NOTHING
        case ("both", f, g):
            first = both_of(after(c, f), g)
            return either_of(first, after(c, g)) if nullable(f) else first
        case ("either", f, g):
            return either_of(after(c, f), after(c, g))
        case ("many", f):
            return both_of(after(c, f), form)
    return NOTHING


# ---- classes and states


def letters_of(form):
    if form[0] in ("one_of", "other_than"):
        return {form[1]}
    return set().union(*(letters_of(part) for part in form[1:]))


def classes(forms):
    """The class of each character of ASCII, and a character of each class."""
    sets = sorted(set().union(*map(letters_of, forms)), key=sorted)
    looks = lambda c: tuple(c in letters for letters in sets)
    samples = [OTHER, 0]
    known = {looks(OTHER): 0, looks(0): 1}
    for c in range(128):
        if looks(c) not in known:
            known[looks(c)] = len(samples)
            samples.append(c)
    return [known[looks(c)] for c in range(128)], samples


def states(forms, samples):
    """Each state with the shortest word that leads to it, those that are whole words first, by their kinds."""
    found, queue = {forms: ""}, [forms]
    for state in queue:
        for c in samples:
            then = tuple(after(c, form) for form in state)
            if then not in found and then != (NOTHING,) * len(forms):
                found[then] = found[state] + chr(c)
                queue.append(then)
    whole = lambda state: next((i for i, form in enumerate(state) if nullable(form)), len(forms))
    return [forms] + sorted(queue[1:], key=whole), found


def shown(word):
    return word.replace(chr(OTHER), "\\u{80}") if word else "the start"


def filled(numbers, width=96):
    line = ""
    for number in numbers:
        if len(line) + len(f" {number},") > width and line:
            yield line
            line = ""
        line += f" {number}," if line else f"{number},"
    yield line


def lines():
    forms = kinds()
    table, samples = classes(forms)
    order, words = states(forms, samples)
    numbers = {state: i + 1 for i, state in enumerate(order)}
    yield BEGIN + "pub(crate) static CLASS: [u8; 128] = ["
    yield from (f"    {line}" for line in filled(table))
    yield "];\n\n/// The state after a character of each class, for each state. Each row says what has been read."
    yield "#[rattlefmt::skip]\npub(crate) static NEXT: [[u8; CLASSES]; STATES] = ["
    rows = [("no word", [0] * len(samples))]
    for state in order:
        rows.append((shown(words[state]), [numbers.get(tuple(after(c, form) for form in state), 0) for c in samples]))
    for word, row in rows:
        yield f"    // {word}"
        yield "    [" + ", ".join(map(str, row[:26])) + ",\n    " + ", ".join(map(str, row[26:])) + "],"
    yield "];\n"


def main():
    tables = "\n".join(lines())
    if sys.argv[1:] != ["check"]:
        sys.stdout.write(tables)
        return
    with open(FILE, encoding="utf-8") as text:
        same = text.read().endswith(tables)
    print("the same" if same else "other tables")
    sys.exit(0 if same else 1)


if __name__ == "__main__":
    main()

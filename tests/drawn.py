"""Draws random query texts, for tests/joins and tests/warm. `streams` has of each stream that a text may
name its columns, and of each column whether it is of texts; each has a column of numbers.
"""

GREATEST = 2**63 - 1


def window(draw, columns):
    """A window of a stream of these columns."""
    part = draw.choice(sorted(columns))
    return draw.choice(
        (
            "",
            "[Now]",
            f"[Range {draw.randint(1, 9)}]",
            f"[Range {draw.randint(0, 9)} Slide {draw.randint(2, 6)}]",
            f"[Rows {draw.randint(1, 6)}]",
            f"[Rows {draw.randint(1, 6)} Slide {draw.randint(2, 4)}]",
            f"[Partition By {part} Rows {draw.randint(1, 3)}]",
        )
    )


def constant(draw, is_text):
    if is_text:
        return draw.choice(("'x'", "'y'", "''"))
    return str(draw.choice((-1, 0, 1, 2, 3, GREATEST)))


SIGNS = "=", "<>", "<", "<=", ">", ">="


def comparison(draw, columns):
    """Two columns of one kind, or a column and a constant, compared."""
    name, is_text = draw.choice(columns)
    others = [other for other, kind in columns if kind == is_text]
    right = draw.choice(others) if draw.random() < 0.7 else constant(draw, is_text)
    sign = draw.choice(("=", "=", "=", "<>", "<", "<=", ">", ">="))
    return f"{name} {sign} {right}"


def condition(draw, columns, depth=0):
    kind = draw.random()
    if depth > 2 or kind < 0.4:
        return comparison(draw, columns)
    if kind < 0.8:
        sides = [condition(draw, columns, depth + 1) for _ in range(2)]
        return f"{sides[0]} And {sides[1]}" if kind < 0.7 else f"({sides[0]} Or {sides[1]})"
    return f"Not ({condition(draw, columns, depth + 1)})"


def loose_term(draw, columns):
    """A comparison that sets no columns of two inputs equal: two columns, one with itself, or one with a constant."""
    name, is_text = draw.choice(columns)
    kind = draw.random()
    if kind < 0.3:
        return f"{name} {draw.choice(SIGNS)} {constant(draw, is_text)}"
    if kind < 0.45:
        return f"{name} {draw.choice(SIGNS)} {name}"
    others = [other for other, of_text in columns if of_text == is_text]
    return f"{name} {draw.choice(SIGNS[1:])} {draw.choice(others)}"


def loose_condition(draw, columns):
    """Few comparisons, some of them often, under AND, OR and NOT."""
    terms = [loose_term(draw, columns) for _ in range(draw.randint(1, 4))]
    # an equality under OR links nothing
    name, is_text = draw.choice(columns)
    terms.append(f"{name} = {draw.choice([other for other, of_text in columns if of_text == is_text])}")
    text = draw.choice(terms[:-1])
    for _ in range(draw.randint(0, 6)):
        more = draw.choice(terms)
        kind = draw.random()
        if kind < 0.4:
            text = f"({text} Or {more})" if draw.random() < 0.5 else f"({more} Or {text})"
        elif kind < 0.8:
            text = f"{text} And {draw.choice(terms[:-1])}"
        elif kind < 0.9 or len(text) > 500:
            text = f"Not ({text} Or {more})"
        else:
            text = f"({text} Or {more}) And ({more} Or {text})"
    return text


def numbers_of(columns):
    return [name for name, is_text in columns if not is_text]


def aggregate(draw, columns):
    column = draw.choice(numbers_of(columns))
    word = draw.choice(("Count(*)", "Sum", "Sum", "Min", "Max"))
    return word if word == "Count(*)" else f"{word}({column})"


def items(draw, columns, shape):
    """Items of a shape, each of a number, and what stands behind WHERE."""
    names = numbers_of(columns)
    if shape == "grouped":
        key = draw.choice(names)
        return f"{key}, {aggregate(draw, columns)}", f" Group By {key}"
    if shape == "whole":
        return f"{aggregate(draw, columns)}, {aggregate(draw, columns)}", ""
    left, right = draw.choice(names), draw.choice(names)
    return f"{left}, {right} {draw.choice('+-*')} {draw.choice((right, '1', '2'))}", ""


def block(draw, streams, counts=(1, 2, 2, 2, 3, 3), where=condition):
    """A block of two columns, both numbers, with one of these counts of inputs and conditions of this kind."""
    inputs = [draw.choice([*streams]) for _ in range(draw.choice(counts))]
    columns = [
        (f"i{place}.{name}", is_text)
        for place, stream in enumerate(inputs)
        for name, is_text in streams[stream].items()
    ]
    told, behind = items(draw, columns, draw.choice(("plain", "plain", "grouped", "whole")))
    named = ", ".join(
        f"{stream} {window(draw, streams[stream])} i{place}" for place, stream in enumerate(inputs)
    )
    distinct = draw.choice(("", "", "Distinct "))
    asked = f" Where {where(draw, columns)}" if draw.random() < 0.85 else ""
    return f"Select {distinct}{told} From {named}{asked}{behind}"


def of_kind(draw, text):
    """A text of blocks under a drawn output kind."""
    kind = draw.choice(("Istream", "Dstream", "Rstream", ""))
    return f"{kind}({text})" if kind else text


def query(draw, streams, where=condition):
    text = block(draw, streams, where=where)
    if draw.random() < 0.25:
        text += f" {draw.choice(('Union', 'Except'))} All {block(draw, streams, where=where)}"
    return of_kind(draw, text)

"""Draws query texts from the whole grammar for bench/hostile, each of which is read and typed: one to six inputs, every
window, and what may be repeated is repeated as often as a text has room for it.
"""
import collections

LONGEST = 4096
KINDS = "Istream", "Dstream", "Rstream", ""
ALIASES = "xyz"
COMPARE = "=", "=", "=", "<>", "!=", "<", "<=", ">", ">="
# What of a text is said again and again.
AGAIN = "items", "groups", "parts", "and", "or", "not", "aggregates", "terms", "levels", "nothing"
DEEPEST = 16

# What is drawn of a text before its blocks: how its blocks end, what is repeated, how many bytes that
# may have in each, how many inputs each block has, whether it is grouped, and what its items are of.
Form = collections.namedtuple("Form", "again room inputs grouped types hold")


def window(draw, columns, form):
    """A window with numbers round `hold`."""
    some = draw.choice((1, 2, max(1, form.hold // 2), form.hold, 10**6))
    slide = draw.choice((2, 3, max(2, form.hold // 2)))
    part = draw.choice([*columns])
    if form.again == "parts":
        names = again(lambda: draw.choice([*columns]), form.room // max(1, sum(form.inputs)), ",")
        return f"[Partition By {names} Rows {draw.choice((1, 2, form.hold))}]"
    unit = draw.choice(("", "", " Seconds", " Minute"))
    return draw.choice(
        (
            "",
            "[Now]",
            "[Unbounded]",
            "[Range Unbounded]",
            "[Rows Unbounded]",
            f"[Range {some}{unit}]",
            f"[Range {some} Slide {slide}{unit}]",
            f"[Rows {some}]",
            f"[Rows {some} Slide {slide}]",
            f"[Partition By {part} Rows {some}]",
            f"[Partition By {part},{draw.choice([*columns])} Rows {some}]",
        )
    )


def again(make, room, between):
    """What is made, as often as it has room."""
    made = [make()]
    size = len(made[0])
    while size + len(between) + len(one := make()) <= room:
        made.append(one)
        size += len(between) + len(one)
    return between.join(made)


class Block:
    """A block of a form over drawn streams, each a map from its columns to whether they are of texts."""

    def __init__(self, draw, streams, form, inputs):
        self.draw, self.form = draw, form
        drawn = [draw.choice([*streams]) for _ in range(inputs)]
        self.inputs = [
            f"{name} {window(draw, streams[name], form)} {alias}".replace("  ", " ")
            for name, alias in zip(drawn, ALIASES)
        ]
        self.columns = {
            is_text: [
                f"{alias}.{column}"
                for name, alias in zip(drawn, ALIASES)
                for column, kind in streams[name].items()
                if kind == is_text
            ]
            for is_text in (False, True)
        }

    def column(self, is_text):
        return self.draw.choice(self.columns[is_text])

    def constant(self, is_text):
        return self.draw.choice(("''", "'x'", "'it''s'") if is_text else ("0", "1", "-1", "7", "9223372036854775807"))

    def compare(self):
        is_text = self.draw.random() < 0.4
        left, right = self.column(is_text), self.draw.choice((self.column, self.constant))(is_text)
        return f"{left}{self.draw.choice(COMPARE)}{right}"

    def deep(self):
        """A comparison in as many brackets, or behind as many NOT, as there may be."""
        depth = self.draw.randint(1, DEEPEST)
        if self.draw.random() < 0.5:
            return "(" * depth + self.compare() + ")" * depth
        return "Not " * depth + self.compare()

    def plain(self):
        return self.compare() if self.form.again != "levels" else self.deep()

    def where(self):
        """A condition, as long as the form says."""
        draw, kind, room = self.draw, self.form.again, self.form.room
        if kind in ("and", "or", "not", "levels"):
            between = {"and": " And ", "or": " Or "}.get(kind) or draw.choice((" And ", " Or "))
            make = (lambda: f"Not {self.compare()}") if kind == "not" else self.plain
            return " Where " + again(make, room, between)
        some = [self.compare() for _ in range(draw.choice((0, 1, 2, 3)))]
        return " Where " + draw.choice((" And ", " Or ")).join(some) if some else ""

    def number(self):
        """An expression of numbers."""
        draw = self.draw
        if self.form.again == "terms":
            return again(lambda: self.column(False), self.form.room // len(self.form.types), draw.choice("+-*"))
        return draw.choice((self.column(False), f"{self.column(False)}{draw.choice('+-*')}{draw.choice('012')}"))

    def item(self, is_text):
        return self.column(True) if is_text else self.number()

    def aggregate(self, is_text):
        column = self.column(is_text)
        words = ("Min", "Max") if is_text else ("Sum", "Min", "Max", "Count")
        word = self.draw.choice(words)
        return "Count(*)" if word == "Count" else f"{word}({column})"

    def groups(self):
        """Columns of GROUP BY, the first of which are items."""
        some = [self.column(is_text) for is_text in self.form.types[:2]]
        if self.form.again == "groups":
            more = again(lambda: self.column(self.draw.random() < 0.5), self.form.room, ",")
            return [*some, more]
        return some

    def text(self):
        draw, types = self.draw, self.form.types
        if self.form.grouped:
            groups = self.groups() if draw.random() < 0.7 or self.form.again == "groups" else []
            items = [*groups[: len(types[:2])]] if groups else []
            items += [self.aggregate(it) for it in types[len(items) :]]
            behind = " Group By " + ",".join(groups) if groups else ""
        else:
            items, behind = [self.item(it) for it in types], ""
        distinct = draw.choice(("", "", "Distinct "))
        return f"Select {distinct}{','.join(items)} From {','.join(self.inputs)}{self.where()}{behind}"


def form_of(draw, hold):
    """A form: its room is what a text has left beside what every text says."""
    blocks = draw.choice((1, 1, 2))
    inputs = tuple(draw.choice((1, 1, 2, 2, 3)) for _ in range(blocks))
    kind = draw.choice(AGAIN)
    room = draw.choice((60, 500, 2_000, 3_300)) // blocks
    grouped = kind in ("groups", "aggregates") or draw.random() < 0.25
    widest = 8 if kind in ("aggregates", "items") else 0
    count = draw.randint(1, 3) if not widest else max(1, room // (12 if kind == "aggregates" else 6))
    only = draw.choice((None, True, False))
    types = [draw.random() < 0.4 if only is None else only for _ in range(count)]
    return Form(kind, room, inputs, grouped, types, hold)


def drawn(draw, streams, hold):
    """A text. What is drawn too long is drawn anew."""
    while True:
        form = form_of(draw, hold)
        blocks = [Block(draw, streams, form, it).text() for it in form.inputs]
        text = draw.choice((" Union All ", " Except All ")).join(blocks)
        kind = draw.choice(KINDS)
        text = f"{kind}({text})" if kind else text
        if len(text.encode()) <= LONGEST:
            return text


def star(draw, streams, hold):
    """All columns of one to three inputs."""
    form = Form("nothing", 60, (draw.randint(1, 3),), False, [], hold)
    block = Block(draw, streams, form, form.inputs[0])
    told = f"{draw.choice(('', 'Distinct '))}*"
    kind = draw.choice(KINDS[:3])
    return f"Select {kind}({told}) From {','.join(block.inputs)}{block.where()}"


def query(draw, streams, hold):
    return star(draw, streams, hold) if draw.random() < 0.1 else drawn(draw, streams, hold)

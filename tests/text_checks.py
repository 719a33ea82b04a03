"""What tests/server checks of the reasons that clients/python gives for lines that are refused. Each check
gives pairs of a name and of what is wrong, or None.
"""
import re

from clients import LOG_IN, Peer, error_of, session, terminal
from natural_texts import BOUND, READING, TEXTS as NATURAL_TEXTS
from served import Server, difference, line_of, tenants

import romburik

STREAMS = (
    b"stream reading room text degrees int\n",
    b"stream bound room text most int\n",
    b"stream door room text opened int closed int\n",
)
# What is typed, the number of its refusal, the word that is named, and where it stands in a query's
# text, by its first place, if it does.
MISTAKES = (
    ("Select * From readings", 30, "readings"),
    ("Select * From reading r, bonds b Where r.room = b.room", 30, "bonds"),
    ("Select * From reading Union All Select * From readin", 30, "readin"),
    ("Select * From c.reading", 30, "c.reading"),
    ("Select * From a.reading, bonds", 30, "bonds"),
    ("Select room, temperature From reading", 52, "temperature"),
    ("Select degree From reading", 52, "degree"),
    ("Select * From reading Where temp > 3", 52, "temp"),
    ("Select r.degrees, x.most From reading r, bound b Where r.room = b.room", 52, "x"),
    ("Select r.most From reading r, bound b Where r.room = b.room", 52, "r.most"),
    ("Select Max(degress) From reading", 52, "degress"),
    ("Select room, Max(degrees) From reading Group By rooms", 52, "rooms"),
    ("Select * From reading [Partition By house Rows 1]", 52, "house"),
    ("Select reading.degrees From reading r", 52, "reading.degrees"),
    ("Select Sum(closed) From reading, bound Where degrees > most", 52, "closed"),
    ("Select Rstream(room, Min(opend) As first) From door [Range 5] Group By room", 52, "opend"),
    ("Select room From reading, bound", 53, "room From"),
    ("Select degrees From reading, bound Where room = 'x'", 53, "room ="),
    ("Select * From reading, reading", 53, "reading"),
    ("Select * From reading r, bound r", 53, "r"),
    ("Select Max(room) From reading, bound", 53, "room"),
    ("Select * From reading Where room = 5", 54, "room"),
    ("Select * From reading Where degrees = 'hot'", 54, "degrees"),
    ("Select * From reading Where degrees > '20'", 54, "degrees"),
    ("Select * From reading r, bound b Where r.degrees = b.room", 54, "r.degrees"),
    ("Select Sum(room) From reading", 54, "room"),
    ("Select room + 1 From reading", 54, "room"),
    ("Select degrees * room From reading", 54, "room From"),
    ("Select degrees - 'x' From reading", 54, "'x'"),
    ("Select room, degrees From reading Group By room", 54, "degrees"),
    ("Select degrees, Count(*) From reading", 54, "degrees"),
    ("Select * From reading Group By room", 54, "*"),
    ("Select room From reading Union All Select degrees From reading", 54, "degrees"),
    ("Select room, degrees From reading Union All Select room From bound", 54, "room From bound"),
    ("Select opened, Max(closed) From door Group By room", 54, "opened"),
    ('put reading 1 ["hall"]', 40, "1 value"),
    ('put reading 1 ["hall",1,2]', 40, "3 values"),
    ('put reading 1 [1,"hall"]', 40, "room"),
    ('put reading 1 ["hall","warm"]', 40, "degrees"),
    ('put door 1 ["hall",1,"late"]', 40, "closed"),
    ('put readings 1 ["hall",1]', 30, "readings"),
    ("beat bonds 5", 30, "bonds"),
    ("grant readings b", 30, "readings"),
    ('{"do":"beat","stream":"reading"}', 12, "at"),
    ('{"do":"beat","stream":"reading","at":-1}', 12, "at"),
    ('{"do":"fetch","query":"q"}', 12, "name"),
    ('{"do":"list","tenant":"a"}', 12, "tenant"),
    ('{"do":"put","stream":"reading","at":1,"row":["hall",1.5]}', 12, "1.5"),
    ('{"do":"put","stream":"reading","at":1,"row":["hall",null]}', 12, "None"),
    ('{"do":"ack","name":"q","to":"5"}', 12, "to"),
    ('{"do":"fetch","name":"q","until":1.0}', 12, "until"),
)


def mistakes_are_named(program):
    """Lines as they are written wrong: why they are refused, with the word, and a mark below it."""
    typed_lines = [line if line[0] in "{pbg" else "query q " + line for line, *_ in MISTAKES]
    with Server(program, tenants("ab", hold=65536)) as server:
        given = b"".join(STREAMS) + "".join(line + "\n" for line in typed_lines).encode()
        ended = terminal(server.port, given=given)
    replies = re.split("^> .*\n", ended.written.decode(), flags=re.MULTILINE)[len(STREAMS) + 1 :]
    for (line, number, word), reply in zip(MISTAKES, replies):
        said = reply.splitlines()[-1]
        name = word.split(" ")[0] if line.startswith("Select") else word
        is_named = said.startswith(f"  {number}: ") and name.split(".")[0] in said
        yield f"the word of {line!r}", None if is_named else f"it says {reply!r}"
        if line.startswith("Select") and is_named:
            marked = reply.splitlines()[-2].index("^") - 2
            places = [it.start() for it in re.finditer(rf"(?<!\w){re.escape(word)}", line)]
            yield f"where {line!r} is wrong", None if marked in places else f"it says {reply!r}"
    yield "how many", difference(len(replies), len(MISTAKES))


# Sixty texts that are wrong, as a newcomer writes them; behind a ~ what is wrong in each, of two that something is
# missing.
WRONG_TEXTS = """\
Select rom From reading ~ rom
Select * From reding ~ reding
Select * From reading Where degres > 20 ~ degres
Select Avg(degrees) From reading ~ Avg
Select room, Max(degrees) From reading Group By romm ~ romm
Select * From reading Where degrees = "20" ~ "
Select * From reading Order By degrees ~ Order
Select * From reading Limit 10 ~ Limit
Select Count(room) From reading ~ Count
Select room, degrees From reading Group By room ~ degrees
Select * From reading Where room like 'h%' ~ like
Select * From reading Where degrees between 1 and 5 ~ between
Select * From reading Where degrees in (1,2) ~ in
Select * From reading r Join bound b On r.room = b.room ~ Join
Select * From reading r, bound b Where room = 'x' ~ room
Select r.room, b.max From reading r, bound b ~ max
Select * From reading Where degrees is null ~ null
Select degrees / 2 From reading ~ /
Select * From reading [5 minutes] ~ 5
Select * From reading [Range 5 min] ~ min
Select * From reading [Range 5 Mins] ~ Mins
Select * From reading (Range 5) ~ (
Select * From reading [Last 5 Minutes] ~ Last
Select Sum(degrees) As sum From reading ~ sum
Select count From reading ~ count
Select Sum(room) From reading ~ room
Select * From reading Where room > 5 ~ room
Select * From reading Where degrees > 'x' ~ degrees
Select * from reading having sum(degrees) > 5 ~ having
Select * From reading Where degrees > 5 Or
Select Max(degrees), room From reading ~ room
Select room From reading Union Select room From bound ~ Union
Select room From reading Union All Select room, most From bound ~ most
Select room From reading Union All Select most From bound ~ most
Select * From reading Group By room ~ *
Select room || 'x' From reading ~ |
Select 'x' + room From reading ~ 'x'
Select * From reading, reading ~ reading
Select a.* From reading a ~ *
Select Top 5 * From reading ~ Top
Insert Into reading Values (1) ~ Insert
Select * From c.reading ~ c.reading
Select * From a.readings ~ a.readings
Select reading.temp From reading ~ temp
Select * From reading [Partition By rum Rows 1] ~ rum
Select degrees - room From reading ~ room
Select upper(room) From reading ~ upper
Select * From reading Where not degrees ~ degrees
Select * From reading Where degrees == 5 ~ =
Select * From reading Where degrees => 5 ~ >=
Select room, sum(degrees) total From reading Group By room ~ total
Select Case When degrees > 5 Then 1 Else 0 End From reading ~ Case
Select * From (Select * From reading) ~ (
Select * From reading Where degrees > (Select Max(most) From bound) ~ (
Select Istream * From reading ~ Istream
Select room degrees From reading ~ degrees
Select room, From reading ~ comma
Select * From reading Where
Select * From reading Where room = hall ~ hall
Select * From reading Where room = 'hall ~ 'hall
"""


def wrong_texts(program):
    """Of sixty texts that are refused nearly all are so with a reason that names what is wrong."""
    silent = []
    with Server(program, tenants("a")) as server, session(server) as it:
        it.stream("reading", READING)
        it.stream("bound", BOUND)
        for text, _, wrong in (line.partition(" ~ ") for line in WRONG_TEXTS.splitlines()):
            error = error_of(it.query, "q", text)
            reason = getattr(error, "reason", None) or getattr(error, "why", None)
            is_named = wrong and re.search(rf"(?<!\w){re.escape(wrong)}(?!\w)", str(error), re.IGNORECASE)
            if not (reason and is_named):
                silent.append(text)
    ends = ["Select * From reading Where degrees > 5 Or", "Select * From reading Where"]
    yield "texts whose reason names nothing", None if silent == ends else f"they are {silent}"


def natural_texts(program):
    """Query texts as a newcomer writes them: where each is refused, and why, in words."""
    reasons = 0
    with Server(program, tenants("a", queries=64)) as server, session(server) as it:
        it.stream("reading", READING)
        it.stream("bound", BOUND)
        for text in NATURAL_TEXTS:
            error = error_of(it.query, "q", text.sent)
            name = f"the text {text.sent!r}"
            if error is None:
                it.drop("q")
            if isinstance(error, romburik.BadQuery):
                reason = error.reason or ""
                reasons += bool(reason)
                yield name, difference(
                    (error.at, reason[: len(text.outcome or "")]), (text.at, text.outcome)
                )
            else:
                found = None if error is None else error.number
                yield name, difference((found, None), (text.outcome, text.at))
    yield "texts with a reason", None if reasons >= 35 else f"they are {reasons}"


MARKED = """\
  Select '\u4e2d\u00fc', Avg(v) From s
                   ^
  50: no query from byte 19 on: AVG isn't served: SUM and COUNT(*), divided by the reader
"""


def terminal_marks_texts(_):
    """The terminal shows where a text is refused, by the places that its letters take."""
    text = "Select '\u4e2d\u00fc', Avg(v) From s"
    pair = line_of(do="query", name="q", text=text), b'{"at":19,"name":"BadQuery","refused":50}\n'
    with Peer([LOG_IN, pair]) as peer:
        ended = terminal(peer.port, given=f"query q {text}\n".encode())
    shown = ended.written.decode().partition('"refused":50}\n')[2]
    yield "a text that is marked", difference((ended.status, shown, peer.fault), (1, MARKED, None))


CHECKS = (
    mistakes_are_named,
    terminal_marks_texts,
    natural_texts,
    wrong_texts,
)

"""Query texts as a newcomer writes them, what the server says of each, and the reason that
clients/python gives where it is refused 50.

Of a refused text an @ stands before the byte that is told. The streams are READING and BOUND.
"""
from typing import NamedTuple, Optional, Union

READING = {"room": "text", "degrees": "int"}
BOUND = {"room": "text", "most": "int"}


class Text(NamedTuple):
    text: str
    outcome: Union[int, None, str] = None
    """None where it is read, a number where it is refused otherwise than 50, else the reason."""

    @property
    def sent(self) -> str:
        return self.text.replace("@", "", 1)

    @property
    def at(self) -> Optional[int]:
        """The byte of refusal 50."""
        place = self.text.find("@")
        return None if place < 0 else len(self.text[:place].encode())


COMPUTED = "WHERE compares columns and constants as they are"
NESTED = "nested queries aren't served"
AGGREGATES = "an aggregate isn't computed with"
WINDOWS = "a window is [Range 60]"
BRACKETS = "a window stands in square brackets"

TEXTS = [
    # What is read.
    Text("Select * From reading"),
    Text("select room, degrees from reading where degrees > 20"),
    Text("Select Istream(*) From reading [Range 5 Minutes]"),
    Text("Select Count(*) From reading [Rows 10]"),
    Text("Select room, Max(degrees) From reading [Range 1 Hour] Group By room"),
    Text("Select Distinct room From reading"),
    Text("Select * From reading [Partition By room Rows 1];"),
    Text("Select r.room, most From reading [Now] r, bound b Where r.room = b.room"),
    Text("Select room, degrees * 9 + 160 As fifths From reading"),
    Text("Select * From reading Where room = 'hall' And Not degrees < 0"),
    Text("Rstream(Select room From reading [Rows 3] Union All Select room From bound)"),
    Text("Select Sum(degrees) As total From reading [Range 59 Slide 60]"),
    Text("Select * From reading Limit"),
    # What is refused by its names and types.
    Text("Select temperature From reading", 52),
    Text("Select * From readings", 30),
    Text("Select room, Sum(degrees) From reading", 54),
    Text("Select room From reading, bound", 53),
    Text("Select * From reading Where degrees = '20'", 54),
    Text("Select * From reading Where degrees <> Null", 52),
    # What is no query.
    Text("Select Avg@(degrees) From reading", "AVG isn't served: SUM and COUNT(*), divided by the reader"),
    Text("Select room, AVG@(degrees) From reading [Range 5 Minutes] Group By room", "AVG isn't served"),
    Text("Select Count(@degrees) From reading", "COUNT takes * alone"),
    Text("Select Count(@Distinct room) From reading", "distinct values aren't counted"),
    Text("Select Sum(degrees @* 2) From reading", "SUM takes one column"),
    Text("Select Max(degrees) @- Min(degrees) From reading", AGGREGATES),
    Text("Select Sum(degrees) @/ Count(*) From reading", AGGREGATES),
    Text("Select 2 * @Sum(degrees) From reading", AGGREGATES),
    Text("Select Upper@(room) From reading", "UPPER isn't served: the functions are"),
    Text("Select degrees @/ 10 From reading", "division isn't served"),
    Text("Select -@degrees From reading", "a minus stands before a number alone: 0 - v"),
    Text("Select room @place From reading", "AS is missing before an item's own name"),
    Text("Select *@, degrees From reading", "* stands alone"),
    Text("Select r.@* From reading r", "name the columns"),
    Text("Select Top @5 * From reading", "TOP isn't served"),
    Text("Select * @Form reading", "FORM is no word of the language: was FROM meant?"),
    Text("Select * From reading Where degrees @+ 1 > 20", COMPUTED),
    Text("Select * From reading Where degrees > 20@.5", "there are no fractions"),
    Text('Select * From reading Where room = @"hall"', "a text stands in single quotes"),
    Text("Select * From reading Where room =@= 'hall'", "equality is one sign: ="),
    Text("Select * From reading Where degrees > 1 @&& degrees < 9", "&& isn't read: AND"),
    Text("Select * From reading Where degrees > 1 @|| degrees < 9", "|| isn't read: OR"),
    Text("Select * From reading Where room @In ('hall', 'attic')", "IN isn't served"),
    Text("Select * From reading Where degrees @Between 1 And 9", "BETWEEN isn't served"),
    Text("Select * From reading Where room @Like 'h%'", "LIKE isn't served"),
    Text("Select * From reading Where room @Is Not Null", "there is no NULL"),
    Text("Select * From reading Where degrees > @(Select Max(most) From bound)", NESTED),
    Text("Select * From @(Select * From reading)", NESTED),
    Text("Select * From reading Where @Count(*) > 3", "WHERE sees no aggregates"),
    Text("Select * From reading r @Join bound b On r.room = b.room", "JOIN .. ON isn't read"),
    Text("Select * From reading Join @bound On reading.room = bound.room", "JOIN .. ON isn't read"),
    Text("Select * From reading r @Left Join bound b On r.room = b.room", "outer joins aren't served"),
    Text("Select * From reading Order @By degrees", "ORDER BY isn't served"),
    Text("Select * From reading Limit @10", "LIMIT isn't served"),
    Text("Select room, Sum(degrees) From reading Group By room @Having Sum(degrees) > 9", "HAVING isn't served"),
    Text("Select room From reading Union @Select room From bound", "UNION is served with ALL alone"),
    Text("Select * From reading [Range 500 @Milliseconds]", "a unit is a second or more"),
    Text("Select * From reading [Range 1 @Week]", "a week is 7 days"),
    Text("Select * From reading [Range 5 @Min]", "the units are second, minute, hour and day"),
    Text("Select * From reading [@5 Minutes]", WINDOWS),
    Text("Select * From reading [@Last 10 Rows]", WINDOWS),
    Text("Select * From reading @Range 60", BRACKETS),
    Text("Select * From reading [Rows 10 @Minutes]", "ROWS counts rows and takes no unit"),
    Text("Select * From reading Window @Tumbling (Size 1 Minute)", "a window stands in [ ]"),
    Text("Select * From reading @-- all of them", "there are no comments"),
    Text("@Create Stream reading (room text, degrees int)", "a text is a query alone"),
    Text("Select room@", "FROM and a stream are missing"),
]  # fmt: skip

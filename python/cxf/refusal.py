"""A refusal: its number, what it means, and where it is."""

MEANINGS = {
    1: "more than 16,777,216 bytes",
    2: "the file is cut off",
    3: "no CR before the LF",
    4: "more than 255 bytes in a line",
    5: "a byte that is no printable ASCII character",
    6: "a wrong first word, name or scale",
    7: "no keyword, where one is due",
    8: "a malformed number",
    9: "letters that are empty, or have a blank at an end",
    10: "a code that no table lists",
    11: "a count that cannot be",
    12: "an open ring",
    13: "something after EOF",
    17: "a ring with a vertex more than 20 km from its first",
    18: "a total beyond 9,000,000,000,000,000,000",
    19: "there is no such row, border or ring",
    20: "a border more than 40 km from the grid, or a grid off the range of coordinates",
    21: "not a date of eight digits, YYYYMMDD",
    22: "a code of more than 11 letters, which no SUP line holds",
    23: "a figure of more than 10 characters, which no SUP line holds",
    24: "a coordinate would leave the range that a file can hold",
    25: "a line that does not agree with the sheet",
    26: "a cell whose side is not 0.001 to 10 metres",
}


class Refused(Exception):
    """The library refused: `number` says why (document 01's numbers).

    Of a reading: `record` (the line of the file, from 1), `offset` (its first byte), and with number 8 `column` (from 1).
    Of a question on a sheet: `row` (from 0), where a row is to blame. Of a SUP file: `line` (from 1). What there is not is None."""

    def __init__(self, number, record=None, offset=None, column=None, row=None, line=None):
        super().__init__(number, record, offset, column, row, line)
        self.number, self.record, self.offset, self.column, self.row, self.line = number, record, offset, column, row, line

    @property
    def meaning(self):
        return MEANINGS[self.number]

    def __str__(self):
        places = [f"{name} {value}" for name, value in (("line", self.record), ("column", self.column), ("row", self.row),
                                                       ("line of the SUP file", self.line)) if value is not None]
        return ", ".join([f"refused {self.number}: {self.meaning}", *places])

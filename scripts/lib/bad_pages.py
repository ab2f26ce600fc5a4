"""How a page of the base begins to be of no form."""
from lib.formats import Page, Row, number_hex

# The position of the base, and how each of its pages begins to be of no form: what stands where in it.
BASE = 3
WAYS = [
    ("another form", Page.MARK.at, "00"), ("another page", Page.NUMBER.at, number_hex(1, 2)), ("another table", Page.TABLE.at, "01"),
    ("a byte that is to be zero", Page.ZERO.at, "01"), ("another row", Page.FIRST_ROW.at, number_hex(63, 4)),
    ("a later position", Page.POSITION.at, number_hex(BASE + 1)), ("a byte of the head", Page.ZEROS.last, "01"),
    ("a row that is neither there nor absent", Page.row_at(0) + Row.THERE.at, "02"), ("an absent row with a byte", Page.row_at(1) - 1, "01"),
    ("a row of 63 bytes", Page.row_at(0), "013f"), ("a byte behind a row", Page.row_at(0), "01016101"),
]

#!/usr/bin/env python3
"""Days of pages of a table of more records than one page may show, in the form of tests/days; run by itself it prints them.

The order that a page has to have is worked out from the prices alone: for each price in turn, the numbers of the records that
have it. tests/days.py serves these days with the others.
"""

# How many records stand. They are more than a page may show, and their numbers are 1 to this.
COUNT = 1_100
PRICES = (9, -10, 100, 0, 10, -9, 5)
# The prices as they rise, and as they fall, with the missing one last.
RISING = (-10, -9, 0, 5, 9, 10, 100, None)
FALLING = (100, 10, 9, 5, 0, -9, -10, None)
# The most records that a page may show.
PAGE = 1_000


def price_of(number):
    """Each fifth record has no price."""
    return None if number % 5 == 0 else PRICES[number % 7]


def numbers_by(prices):
    """The numbers of the records that have one of these prices: price by price, and rising where the price is the same."""
    return [number for price in prices for number in range(1, COUNT + 1) if price_of(number) == price]


def items():
    """Session 1 puts the records, and opens the table of them all."""
    for number in range(1, COUNT + 1):
        price = "" if price_of(number) is None else f',"price":{price_of(number)}'
        yield f'> 1 PUT {{"id":"i{number:04}"{price}}}'
        yield f"1 OK {number}"
    for line in ("REFRESH", "OPEN"):
        yield f"> 1 {line}"
        yield f"1 OK {COUNT}"


class Finds:
    """FINDs of one sort and one query, and the numbers of the records that they show, in order."""

    def __init__(self, sort, query, order):
        self.sort, self.query, self.order = sort, query, order

    def line(self, count, mark):
        return f"> 1 FIND {COUNT} {count} {self.sort} {'.' if mark is None else mark} {self.query}"

    def page(self, count, mark, shown):
        """The FIND of this many records behind a mark, which has to show these."""
        yield self.line(count, mark)
        yield f"1 OK {len(shown)} {len(self.order)}"
        for number in shown:
            price = price_of(number)
            # The price is shown where it is what the page is sorted by.
            yield f"1 {number} i{number:04} {'.' if self.sort == '.' or price is None else price}"

    def pages(self, count):
        """FINDs of this many records, each behind the last record of the page before, until nothing is shown."""
        mark = None
        for at in range(0, len(self.order), count):
            shown = self.order[at : at + count]
            yield from self.page(count, mark, shown)
            mark = shown[-1]
        yield from self.page(count, mark, [])

    def all(self):
        """Pages of no record, of the first, and of one in the middle; pages through all; and one that is too large."""
        yield from self.page(0, None, [])
        yield from self.page(1, None, self.order[:1])
        yield from self.page(1, self.order[549], self.order[550:551])
        yield from self.pages(PAGE)
        yield from self.pages(97)
        yield self.line(PAGE + 1, None)
        yield "1 NO 25"


def behind_others():
    """Pages of what has a price from -9 to 5: of all hits behind a dearer record, behind one without a price, and through them."""
    hits = numbers_by((5, 0, -9))
    finds = Finds("-price", "price:[-9 TO 5]", hits)
    yield from finds.page(PAGE, numbers_by([9])[-1], hits)
    yield from finds.page(PAGE, numbers_by([None])[-1], [])
    yield from finds.pages(50)


# How many records of as many prices, from 0 on, stand in two segments, of which the first ends there.
DIFFERENT = 1_200
FIRST_ENDS = 700


def different_price_of(number):
    """No two are alike, and neighbours are far apart."""
    return number * 389 % DIFFERENT


def different_items():
    """Session 1 puts the records, and opens the table of them all."""
    for number in range(1, DIFFERENT + 1):
        yield f'> 1 PUT {{"id":"{number}","price":{different_price_of(number)}}}'
        yield f"1 OK {number}"
        if number in (FIRST_ENDS, DIFFERENT):
            yield from ("> 1 REFRESH", f"1 OK {number}")
    yield from ("> 1 OPEN", f"1 OK {DIFFERENT}")


def different_pages():
    """The thousand hits of the least prices, those of the greatest, and no more."""
    numbers = {different_price_of(number): number for number in range(1, DIFFERENT + 1)}
    for sort, prices in (("+price", range(DIFFERENT)), ("-price", range(DIFFERENT - 1, -1, -1))):
        yield f"> 1 FIND {DIFFERENT} {PAGE} {sort} . *:*"
        yield f"1 OK {PAGE} {DIFFERENT}"
        yield from (f"1 {numbers[price]} {numbers[price]} {price}" for price in prices[:PAGE])
        yield f"> 1 FIND {DIFFERENT} {PAGE + 1} {sort} . *:*"
        yield "1 NO 25"


def text():
    """The days."""
    days = {
        "pages in order of addition show each record once": Finds(".", "*:*", list(range(1, COUNT + 1))).all(),
        "pages by rising price show each record once": Finds("+price", "*:*", numbers_by(RISING)).all(),
        "pages by falling price show each record once": Finds("-price", "*:*", numbers_by(FALLING)).all(),
        "a mark that is no hit has its place too": behind_others(),
    }
    assert len(numbers_by(RISING)) == len(numbers_by(FALLING)) == COUNT
    lines = ["=: all records", *items()]
    for title, finds in days.items():
        lines += ["", f"== {title}", ": all records", *finds]
    lines += ["", "== a page of two segments has a thousand hits and no more", *different_items(), *different_pages()]
    return "\n".join(lines) + "\n"


if __name__ == "__main__":
    print(text(), end="")

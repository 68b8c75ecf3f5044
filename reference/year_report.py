"""The year report of a book in a setting, and its refusals, from the paper."""

from reference.book import read_values
from reference.layout import MOST_BYTES_TAKEN, PRODUCT_GROUPS, SETTINGS
from reference.valuation import book_refusal, year_table

HEADING = "group,year,premium,outgo"
# No report is longer.
MOST_BYTES = 9_525


def report_text(book, setting):
    """The report of an accepted book: each group's years with premium after cap and outgo."""
    values = read_values(book)
    lines = [HEADING]
    for product_group in PRODUCT_GROUPS:
        for k, year in enumerate(year_table(values, setting, product_group)):
            lines.append(f"{product_group},{k},{year.premium},{year.outgo}")
    return "".join(line + "\n" for line in lines).encode("ascii")


def length_refusal(book, setting):
    """(refusal, place) of the call for the length: 14, then the book's; both 0 where accepted."""
    return book_refusal(book) if setting in SETTINGS else (14, 0)


def report_length(book, setting):
    """(refusal, place, length) of that call: the report's bytes, 0 where refused."""
    refusal, place = length_refusal(book, setting)
    return refusal, place, 0 if refusal else len(report_text(book, setting))


def report_refusal(length_reply, buffer_length):
    """(refusal, place) of the call that writes: those of the length, then 20 for a short buffer."""
    refusal, place, length = length_reply
    if refusal == 0 and buffer_length < length:
        return 20, 0
    return refusal, place


def report_page(book, setting):
    """What the program writes for its input: the report, or one line for a refusal."""
    taken = book[:MOST_BYTES_TAKEN]
    refusal, place = length_refusal(taken, setting)
    if refusal:
        return f"refused {refusal} {place}\n".encode("ascii")
    return report_text(taken, setting)

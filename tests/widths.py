"""The two tables of cli/width.c, of the Unicode Character Database that this Python has (unicodedata.unidata_version).

A character takes no column if it is a mark or a format character, or a vowel or final of Hangul; two if its East_Asian_Width is
Wide or Fullwidth; else one. A range goes on over numbers that no character has.
"""
import unicodedata

# Format characters that are seen: the soft hyphen, and the signs that stand around numbers.
SEEN = {0xAD, 0x6DD, 0x70F, 0x8E2, 0x110BD, 0x110CD, *range(0x600, 0x606)}
HANGUL = {*range(0x1160, 0x1200), *range(0xD7B0, 0xD7FC)}


def columns(number):
    """None: no character has this number."""
    category = unicodedata.category(chr(number))
    if category in ("Cn", "Co"):
        return None
    if category in ("Mn", "Me") or category == "Cf" and number not in SEEN or number in HANGUL:
        return 0
    return 2 if unicodedata.east_asian_width(chr(number)) in "WF" else 1


def ranges(wanted):
    found = last = None
    for number in range(0x110000):
        width = columns(number)
        if width == wanted:
            found, last = found if found is not None else number, number
        elif width is not None and found is not None:
            yield found, last
            found = None
    if found is not None:
        yield found, last


def show(name, wanted):
    line = "   "
    print(f"static const struct range {name}[] = {{")
    for first, last in ranges(wanted):
        part = f" {{ 0x{first:X}, 0x{last:X} }},"
        if len(line + part) > 128:
            print(line)
            line = "   "
        line += part
    print(line + "\n};")


show("none", 0)
show("two", 2)

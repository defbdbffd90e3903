"""The calls from Python: the canonical form of a name with an entity, a refusal as an exception, CDATA sections, a strict reading, a
list's tokens, a register.

    python3 canonical.py [PATH OF libgovlezna.so]
"""
import ctypes
import struct
import sys

NO_SCRATCH, NO_ROOM = 18, 19
NO_TABLE = b"\0", b""

Answer = ctypes.c_uint64 * 2


class Cursor(ctypes.Structure):
    _fields_ = [("offset", ctypes.c_uint64), ("finished", ctypes.c_uint64)]


class Refusal(Exception):
    def __init__(self, number, answer):
        super().__init__(f"refused by {number}: {answer[0]}, {answer[1]}")


SLICE = [ctypes.c_char_p, ctypes.c_size_t]  # pointer, length

library = ctypes.CDLL(sys.argv[1] if len(sys.argv) > 1 else "libgovlezna.so.1")
WORD = [ctypes.POINTER(ctypes.c_uint64)]
SETTINGS = [ctypes.c_uint8, ctypes.c_uint64, ctypes.c_uint64]  # version, depth, limit
ARGUMENTS = {
    "canonical_form": SLICE + SETTINGS + SLICE * 4 + WORD,
    "normalize_attribute_value_strict": SLICE + SETTINGS + SLICE * 3 + WORD,
    "normalize_nmtokens": SLICE + SETTINGS + SLICE * 4 + WORD,
    "next_nmtoken": SLICE + WORD + WORD,
    "cdata_next": SLICE + [ctypes.POINTER(Cursor)] + WORD,
    "register_add": SLICE * 2 + WORD + WORD,
}


def call(name, *arguments):
    """The number, and the answer's two words."""
    function, answer = getattr(library, "govlezna_" + name), Answer()
    function.restype, function.argtypes = ctypes.c_uint32, ARGUMENTS[name]
    return function(*arguments, answer), answer


def accepted(name, *arguments):
    number, answer = call(name, *arguments)
    if number != 0:
        raise Refusal(number, answer)
    return answer


def entity_table(definitions):
    """The list and the pool of an entity table."""
    commands, pool = b"", b""
    for name, text in definitions.items():
        name, text = name.encode(), text.encode()
        if len(name) > 0xFF or len(text) > 0xFFFF or len(pool) + len(name) + len(text) > 0xFFFFFFFF:
            raise ValueError("a definition holds a name of 255 and a text of 65,535 bytes")
        commands += struct.pack("<BIBIH", 1, len(pool), len(name), len(pool) + len(name), len(text))
        pool += name + text
    return commands + b"\0", pool


def canonical_form(text, table, version=0, depth=8, limit=100):
    """The form and the openings. The first call tells how long the form is."""
    text = text.encode()
    commands, pool = table
    lent = text, len(text), version, depth, limit, commands, len(commands), pool, len(pool)
    scratch, length = ctypes.create_string_buffer(4), 0
    while True:
        out = ctypes.create_string_buffer(length + 1)
        number, answer = call("canonical_form", *lent, scratch, len(scratch), out, length)
        if number == 0:
            return out.raw[: answer[0]].decode(), answer[1]
        if number != NO_ROOM:
            raise Refusal(number, answer)
        length = answer[0]


def cdata(text):
    """Each call checks all that it is handed; so it gets windows, each from where the last one left off to behind the next '>'.
    Such an end is within no character and no `]]>`. A window without a cut is a part of the section."""
    text, at, sections = text.encode(), 0, [b"<![CDATA["]
    while True:
        window, cursor = text[at : text.find(b">", at + 1) + 1 or None], Cursor(0, 0)
        length = accepted("cdata_next", window, len(window), cursor)[1]
        sections.append(window[:length])
        at += length
        if not cursor.finished:
            sections.append(b"]]><![CDATA[")
        elif at == len(text):
            return b"".join(sections + [b"]]>"]).decode()


def read_strictly(text, version=1, depth=8, limit=100):
    """The value, without a table. It has at most as many bytes as the text."""
    text = text.encode()
    commands, pool = NO_TABLE
    out = ctypes.create_string_buffer(len(text) + 1)
    lent = text, len(text), version, depth, limit, commands, len(commands), pool, len(pool)
    length = accepted("normalize_attribute_value_strict", *lent, out, len(text))[0]
    return out.raw[:length].decode()


def token_list(text, version=1, depth=8, limit=100):
    """The value as a list, without a table. Asked first for the length of the scratch, then for that of the list."""
    text = text.encode()
    commands, pool = NO_TABLE
    lent = text, len(text), version, depth, limit, commands, len(commands), pool, len(pool)
    lengths = {NO_SCRATCH: 0, NO_ROOM: 0}
    while True:
        scratch, out = (ctypes.create_string_buffer(length + 1) for length in lengths.values())
        number, answer = call("normalize_nmtokens", *lent, scratch, lengths[NO_SCRATCH], out, lengths[NO_ROOM])
        if number == 0:
            return out.raw[: answer[0]]
        if number not in lengths:
            raise Refusal(number, answer)
        lengths[number] = answer[0]


def tokens(text):
    """Each window goes from where the last one left off up to the next space."""
    found, at, whole = [], 0, token_list(text)
    while at < len(whole):
        end = whole.find(b" ", at + 1)
        window, offset = whole[at : end if end >= 0 else None], ctypes.c_uint64(0)
        start, length = accepted("next_nmtoken", window, len(window), ctypes.byref(offset))
        found.append(window[start : start + length].decode())
        at += offset.value
    return found


class Register:
    """A buffer and its used length. Each add makes room for one more form."""

    def __init__(self):
        self.bytes, self.used = b"", ctypes.c_uint64(0)

    def add(self, form):
        form = form.encode()
        length = self.used.value + 8 + len(form)
        buffer = ctypes.create_string_buffer(self.bytes, length + 1)
        count = accepted("register_add", form, len(form), buffer, length, ctypes.byref(self.used))[0]
        self.bytes = buffer.raw[: self.used.value]
        return count


def main():
    sys.stdout.reconfigure(encoding="utf-8")
    table = entity_table({"sail": "Gro&#xDF;segel"})
    form, openings = canonical_form("Panel &sail; <3>", table)
    print(form)
    print("openings:", openings)
    try:
        canonical_form("Panel &boom;", table)
    except Refusal as refusal:
        print(refusal)
    print(cdata("]]>]]>"))
    try:
        entity_table({"boom": "x" * 65536})
    except ValueError as error:
        print(error)
    try:
        print(read_strictly("Gro&#xDF;segel"))
        print(read_strictly("Fock&#1;"))
    except Refusal as refusal:
        print(refusal)
    for token in tokens(" p1\t p2  p3 "):
        print("token:", token)
    names = Register()
    for form in ("Fock", "Baum", "Fock"):
        print(f"{form}: {names.add(form)}")


if __name__ == "__main__":
    main()

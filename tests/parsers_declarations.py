#!/usr/bin/env python3
"""What expat and libxml2 make of texts of entity declarations; tests/declarations.txt is its output.

Each text is the internal subset of a document of XML 1.0, <!DOCTYPE r [TEXT]><r/>. A line has expat's verdict and libxml2's, + or -; why
document 02 has another answer than one of them, or - where it has theirs; the text; and, where document 02 takes it, the names and replacement
texts that are declared, the first of each name, in the program's JSON; with TABs between. The reasons:
  char   a character outside Char, raw or by reference: both refuse it, we take it. The names and texts are those that both give for the text with
         characters for private use in such places.
  name   a name with characters that the fifth edition alone allows: expat refuses it, libxml2 and we take it.
  other  a comment, a processing instruction, another declaration, an external identifier or a parameter reference: both take it, and we refuse it by 21.
What is not ASCII that prints is escaped byte by byte, as printf's %b reads it. tests/declarations.sh replays the lines; tests/JdkDeclarations.java
reads the same texts in XML 1.1."""
import ctypes
import ctypes.util
import random
import re
import sys
from xml.parsers import expat

WRITTEN = [
    # XML 1.0, 3.3.3, and what the standard shows elsewhere in chapter 4 and appendix D.
    '<!ENTITY d "&#xD;">\n<!ENTITY a "&#xA;">\n<!ENTITY da "&#xD;&#xA;">',
    '<!ENTITY Pub-Status "This is a pre-release of the\n specification.">',
    '<!ENTITY example "<p>An ampersand (&#38;#38;) may be escaped\nnumerically (&#38;#38;#38;) or with a general entity\n(&amp;amp;).</p>" >',
    "<!ENTITY zz '&#60;!ENTITY tricky \"error-prone\" >' >",
    '<!ENTITY rights "All rights reserved" >\n<!ENTITY book "La Peste: Albert Camus, \xa9 1947 &rights;" >',
    '', ' \t\r\n', "<!ENTITY e ''>", '<!ENTITY e "">', "<!ENTITY e '\"'>", '<!ENTITY e "\'">', "<!ENTITY e 'a'><!ENTITY e 'b'>",
    "<!ENTITY e '&f;'><!ENTITY f '&e;'>", "<!ENTITY e '&#38;'>", "<!ENTITY e '&#37;'>", "<!ENTITY e '&#60;&#x26;#60;'>", "<!ENTITY e '<'>",
    "<!ENTITY\te\n'x'\r>", "<!ENTITY\r\ne\r\n'a\r\nb\rc\nd'\r\n>\r\n", "<!ENTITY e '\x85\u2028'>", "<!ENTITY\x85e 'x'>", "<!ENTITY e\u2028'x'>",
    "<!ENTITY e 'x' >>", "<!ENTITY e'x'>", "<!ENTITYe 'x'>", "<!ENTITY e x>", "<!ENTITY e 'x'", "<!ENTITY e 'x", "<!ENTITY e", "<!ENTITY", '<', '<!', 'x', '>',
    "<!entity e 'x'>", "<! ENTITY e 'x'>", "<!ENTITY 'x'>", "<!ENTITY e 'x' 'y'>", "<!ENTITY e f 'x'>", "<!ENTITY e 'a%'>", "<!ENTITY e 'a%p;'>", "<!ENTITY e '&'>",
    "<!ENTITY e '&;'>", "<!ENTITY e '& f;'>", "<!ENTITY e '&f'>", "<!ENTITY e '&f ;'>", "<!ENTITY e '&1;'>", "<!ENTITY e '&-a;'>", "<!ENTITY e '&a.-1;'>", "<!ENTITY e '&#'>",
    "<!ENTITY e '&#;'>", "<!ENTITY e '&#x;'>", "<!ENTITY e '&#X41;'>", "<!ENTITY e '&#x4G;'>", "<!ENTITY e '&#4A;'>", "<!ENTITY e '&#+65;'>", "<!ENTITY e '&#-65;'>",
    "<!ENTITY e '&# 65;'>", "<!ENTITY e '&#65 ;'>", "<!ENTITY e '&#065;&#x0041;&#x1d11e;'>", "<!ENTITY e '&#0;'>", "<!ENTITY e '&#xD800;'>", "<!ENTITY e '&#xDFFF;'>",
    "<!ENTITY e '&#x110000;'>", "<!ENTITY e '&#x10FFFF;'>", "<!ENTITY e '&#4294967361;'>", "<!ENTITY e '&#18446744073709551681;'>", "<!ENTITY e '&#6\n5;'>",
    "<!ENTITY e '&#65&#66;'>", "<!ENTITY e \"&#6'5;\">", "<!ENTITY e '\ufeff'>", "\ufeff<!ENTITY e 'x'>", "<!ENTITY e 'x'>\ufeff",
    # Other declarations.
    "<!-- c --><!ENTITY e 'x'>", "<!ENTITY e 'x'><!-- c -->", "<?p i?>", "<!ELEMENT r ANY>", "<!ATTLIST r a CDATA #IMPLIED>", "<!NOTATION n SYSTEM 'n'>", "<!ENTITY % p 'x'>",
    "<!ENTITY e SYSTEM 'x'>", "<!ENTITY e PUBLIC '-//x' 'x'>", "<!NOTATION n SYSTEM 'n'><!ENTITY e SYSTEM 'x' NDATA n>", "<!ENTITY % p ''>%p;", "<!ENTITY % p ''>%p;<!ENTITY e 'x'>",
]
# Characters at the ends of the ranges of Char, NameStartChar and NameChar.
ENDS = [0x00, 0x09, 0x0D, 0x20, 0x2D, 0x2E, 0x2F, 0x30, 0x3A, 0x3B, 0x40, 0x41, 0x5B, 0x5F, 0x61, 0x7B, 0x7F, 0xA0, 0xB7, 0xC0, 0xD7, 0xF7, 0x132, 0x2FF, 0x300, 0x36F, 0x370,
        0x37D, 0x37E, 0x37F, 0x1FFF, 0x2000, 0x200C, 0x200D, 0x200E, 0x203F, 0x2040, 0x2041, 0x2070, 0x218F, 0x2190, 0x2C00, 0x2FEF, 0x2FF0, 0x3001, 0x4E00, 0xAC00, 0xD7FF, 0xE000,
        0xF900, 0xFDCF, 0xFDD0, 0xFDF0, 0xFFFD, 0xFFFE, 0xFFFF, 0x10000, 0xEFFFF, 0xF0000, 0x10FFFF]
PIECES = ['sail', 'a', ' ', '\n', '\r\n', '\r', '\t', '\xe9', '\u20ac', '\U0001d11e', '&f;', '&e.1;', '&#65;', '&#xE9;', '&#13;', '&#38;', '<', '>', '#', ';', '\x85', '\u2028', '\x01']
SPOILS = list('<!>ENTITY abe:-.1\'"&#;%x \n') + ['\r\n', '\xb7', '\xe9', '\u037e', '\x01', '\ufffe', '<!ENTITY ', '&#', '--', '<?']


def texts(number_of_damaged):
    yield from WRITTEN
    around = {point for end in ENDS for point in (end - 1, end, end + 1) if 0 < point <= 0x10FFFF and not 0xD800 <= point < 0xE000}
    for one in map(chr, sorted(around)):
        yield from (f"<!ENTITY {one} 'x'>", f"<!ENTITY a{one} 'x'>", f"<!ENTITY e '&{one};'>", f"<!ENTITY e '&a{one};'>", f"<!ENTITY e '{one}'>", f"<!ENTITY e '&#{ord(one)};'>")
    chosen = random.Random(3)
    well_formed = [declarations(chosen) for _ in range(300)]
    yield from well_formed
    for _ in range(number_of_damaged):
        yield damaged(chosen, chosen.choice(well_formed))


def declarations(chosen):
    one = lambda: '<!ENTITY{}{}{}{quote}{}{quote}{}>'.format(
        blanks(chosen, 1), chosen.choice(['e', 'f', 'a-1', '_', ':x', '\xe9', '\u4e2d']), blanks(chosen, 1),
        ''.join(chosen.choices(PIECES, k=chosen.randrange(5))), blanks(chosen, 0), quote=chosen.choice('"\''))
    return blanks(chosen, 0).join(one() for _ in range(chosen.choice([1, 1, 2])))


def blanks(chosen, least):
    return ''.join(chosen.choices([' ', '\n', '\r\n', '\t', '\r'], k=least + chosen.choice([0, 0, 0, 1])))


def damaged(chosen, text):
    at = chosen.randrange(len(text))
    kind = chosen.randrange(4)
    if kind == 0:
        return text[:at]
    put = '' if kind == 1 else chosen.choice(SPOILS)
    return text[:at] + put + text[at + (kind != 3):]


def is_char(point):
    return point in (9, 10, 13) or 0x20 <= point < 0xD800 or 0xE000 <= point < 0xFFFE or 0x10000 <= point <= 0x10FFFF


# To characters for private use, and back: none of them is in PIECES or SPOILS.
def private(character):
    return chr(0xE000 + (ord(character) & 0xFF)) if not is_char(ord(character)) else character


def with_private(text):
    def named(match):
        point = int(match[1][1:], 16) if match[1].startswith('x') else int(match[1])
        return f'&#{ord(private(chr(point)))};' if 0 < point < 0x10000 and not 0xD800 <= point < 0xE000 else match[0]
    return ''.join(map(private, re.sub('&#([0-9]+|x[0-9A-Fa-f]+);', named, text)))


def restored(definitions):
    back = {private(one): one for one in map(chr, [*range(32), 0xFFFE, 0xFFFF]) if not is_char(ord(one))}
    return [(name, ''.join(back.get(one, one) for one in value)) for name, value in definitions]


def document(text):
    return f'<!DOCTYPE r [{text}]><r/>'.encode()


def read_by_expat(text):
    """Nothing where it is refused; else the definitions, and whether there is anything else in the text."""
    found, others = {}, []
    other = lambda *_: others.append(1)
    parser = expat.ParserCreate('UTF-8')

    def entity(name, is_parameter, value, base, system, public, notation):
        if is_parameter or value is None:
            other()
        else:
            found.setdefault(name, value)
    parser.EntityDeclHandler = entity
    parser.CommentHandler = parser.ProcessingInstructionHandler = parser.ElementDeclHandler = parser.AttlistDeclHandler = other
    parser.NotationDeclHandler = parser.SkippedEntityHandler = other
    try:
        parser.Parse(document(text), True)
    except expat.ExpatError:
        return None
    return list(found.items()), bool(others)


LIBXML2 = ctypes.CDLL(ctypes.util.find_library('xml2'))
LIBXML2.xmlReadMemory.restype = ctypes.c_void_p
QUIET, INTERNAL_GENERAL, ENTITY_DECLARATION = 32 + 64 + 2048, 1, 17


def word(address, offset, kind=ctypes.c_void_p):
    return kind.from_address(address + offset).value


def read_by_libxml2(text):
    """The same. A node has its kind at 8, its name at 16, its first child at 24, its next one at 48; an entity its text at 80, its kind at 92."""
    bytes_ = document(text)
    read = LIBXML2.xmlReadMemory(bytes_, len(bytes_), b'', b'UTF-8', QUIET)
    if read is None:
        return None
    subset, found, others = word(read, 80), {}, False
    node = word(subset, 24) if subset else None
    while node:
        if word(node, 8, ctypes.c_int) == ENTITY_DECLARATION and word(node, 92, ctypes.c_int) == INTERNAL_GENERAL:
            found.setdefault(word(node, 16, ctypes.c_char_p).decode(), word(node, 80, ctypes.c_char_p).decode())
        else:
            others = True
        node = word(node, 48)
    LIBXML2.xmlFreeDoc(ctypes.c_void_p(read))
    return list(found.items()), others


def verdict(text):
    """Both verdicts, the reason, and the definitions that are expected; none where the text is to be refused."""
    one, other = read_by_expat(text), read_by_libxml2(text)
    signs = ('-' if one is None else '+') + ('-' if other is None else '+')
    if signs == '++':
        assert one[0] == other[0] or one[1], (text, one, other)
        return signs, ('other', None) if one[1] else ('-', one[0])
    neutral = with_private(text)
    if signs == '--' and neutral != text:
        _, (reason, definitions) = verdict(neutral)
        return signs, (reason if definitions is None else 'char', definitions and restored(definitions))
    if signs == '--':
        return signs, ('-', None)
    assert signs == '-+' and any(ord(character) > 0x7F for character in text), (text, one, other)
    return signs, ('name', other[0])


def json(definitions):
    def string(text):
        short = {'"': '\\"', '\\': '\\\\'}
        return '"' + ''.join(short.get(c) or (f'\\u{ord(c):04x}' if c < ' ' or c == '\x7f' else c) for c in text) + '"'
    return '[' + ','.join(f'{{"name":{string(name)},"text":{string(text)},"shadowed":false}}' for name, text in definitions) + ']'


def escaped(text):
    return ''.join(chr(byte) if 0x20 <= byte < 0x7F and byte != 0x5C else rf'\x{byte:02x}' for byte in text.encode())


if __name__ == '__main__':
    print("# expat's verdict and libxml2's, the reason, the text, names and replacement texts: tests/parsers_declarations.py says more.")
    seen = set()
    for text in texts(2400):
        if text in seen or '\0' in text:
            continue
        seen.add(text)
        signs, (reason, definitions) = verdict(text)
        print(*signs, reason, escaped(text), '' if definitions is None else escaped(json(definitions)), sep='\t')

#!/usr/bin/env python3
"""What expat says of external entities in attribute values; tests/external.txt is its output.

A line is a document: the verdict, the value of an attribute as it is written, and the declarations of entities, with TABs between.
The verdict is the value that expat hands over, with = before it, or expat's number of the error. Nothing else in these documents
is an error. tests/external.sh replays the lines."""
import itertools
from xml.parsers import expat

EXTERNAL = 'e SYSTEM "e.svg"'
PUBLIC = 'e PUBLIC "-//Sail//Plan//EN" "e.svg"'
UNPARSED = 'e SYSTEM "e.svg" NDATA svg'
TEXT = 'e "sail"'
EMPTY = 'e ""'

# Values, and declarations in their order.
DOCUMENTS = [
    # Each kind of declaration, in the value itself.
    *itertools.product(['&e;', 'Cut &e; here', '&#101;&e;'], [(d,) for d in (EXTERNAL, PUBLIC, UNPARSED, TEXT, EMPTY)]),
    # The first declaration binds, of either kind.
    *itertools.product(['&e;'], itertools.permutations((EXTERNAL, TEXT))),
    *itertools.product(['&e;'], itertools.permutations((UNPARSED, EMPTY))),
    ('&e;', (TEXT, EXTERNAL, EXTERNAL)),
    ('&e;', (EXTERNAL, EXTERNAL, TEXT)),
    # In another entity's text, declared before it and after it, and one deeper.
    *itertools.product(['&a;', 'x &a; y'], itertools.permutations((EXTERNAL, 'a "b&e;c"'))),
    *itertools.product(['&a;'], itertools.permutations((TEXT, 'a "b&e;c"'))),
    ('&a;', ('a "&b;"', 'b "&c;&c;"', 'c "x&e;"', UNPARSED)),
    ('&a;', ('a "&b;"', 'b "&c;&c;"', 'c "x&e;"', TEXT, EXTERNAL)),
    # A text that is never opened may refer to it.
    ('', (EXTERNAL,)),
    ('plan', (EXTERNAL, 'a "b&e;c"')),
    ('&b;', ('a "&e;"', 'b "c"', UNPARSED)),
    ('&b;', ('b "c"', 'b "&e;"', EXTERNAL)),
    # Other references beside it; names that are nearly its.
    ('&lt;&gt;&amp;&apos;&quot;&#65;&#x42;', (EXTERNAL,)),
    ('&amp;e;', (EXTERNAL,)),
    ('&#38;e;', (EXTERNAL,)),
    ('&lt;&e;', (EXTERNAL,)),
    ('&E;&ee;', (EXTERNAL, 'E "1"', 'ee "2"')),
    ('&ee;', ('ee SYSTEM "ee.svg"', TEXT)),
    ('&e;', ('ee SYSTEM "ee.svg"', TEXT)),
    ('&f;&e;', (TEXT, 'f SYSTEM "f.svg"')),
    ('&é;', ('é SYSTEM "e.svg"',)),
    ('é&é;', ('é "½"', EXTERNAL)),
]


def verdict(value, declarations):
    entities = ''.join(f'<!ENTITY {declaration}>' for declaration in declarations)
    document = f'<!DOCTYPE r [<!NOTATION svg SYSTEM "svg">{entities}]><r a="{value}"/>'
    found = {}
    parser = expat.ParserCreate()
    parser.StartElementHandler = lambda _, attributes: found.update(attributes)
    try:
        parser.Parse(document, True)
    except expat.ExpatError as error:
        return str(error.code)
    return '=' + found['a']


print('# Verdict of expat, attribute value, declarations of entities: tests/expat_external.py says more.')
for value, declarations in DOCUMENTS:
    print(verdict(value, declarations), value, *declarations, sep='\t')

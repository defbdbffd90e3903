#!/usr/bin/env python3
"""What expat makes of attributes that are declared NMTOKENS; tests/nmtokens.txt is its output, in the lines of expat_documents.py. expat does
not validate, so that tokens may hold any character. tests/nmtokens.sh replays them."""
import itertools
from expat_documents import EXAMPLES, every, print_lines

# Values, and declarations in their order.
DOCUMENTS = [
    *EXAMPLES,
    # Every short value of white space and letters; and of the same by references.
    *((value, ()) for value in every((' ', '\t', '\r\n', 'x'), 4)),
    *((value, ()) for value in every((' ', '&#32;', '&#9;', 'x'), 3)),
    *((value, ()) for value in every(('&#x20;', '&#10;', '&#13;', 'x'), 3)),
    # Spaces of the value beside those of a text, and in it.
    *((before + '&e;' + after, (('e', text),))
      for before, after, text in itertools.product(('', ' ', 'x', 'x '), ('', ' ', 'y', ' y'),
                                                   ('', ' ', '&#9;', '&#13;&#10;', 'z', ' z', 'z ', ' z  w '))),
    # Texts in texts.
    *((value, (('a', outer), ('b', inner)))
      for value, outer, inner in itertools.product(('&a;', ' &a; &b;'), ('&b;', ' &b;', '&b; &b;', 'x&b; '), ('', ' ', 'y', ' y '))),
    # References that the replacement text keeps: a space by one is a space here too, LF, TAB and CR are not.
    *((' &e; x', (('e', text),)) for text in ('&#38;#32;', '&#38;#32;&#38;#x20;', '&#38;#10;', '&#38;#9; ', ' &#38;#13; ', '&lt; &amp;')),
    # Other spaces are characters of tokens.
    *((f'{space}a{space}{space}b ', ()) for space in ('\xA0', '\u2003', '\u3000', '\x85', '\u2028')),
    # Lists as they are written.
    ('p1 p2 p3', ()),
    ('\n        panel-1\n        panel-2\n    ', ()),
    ('p1\tp1  p1', ()),
    ('&fore; &main;', (('fore', 'f1 f2'), ('main', 'm1\n        m2'))),
    (' '.join(f'panel{n}' for n in range(40)), ()),
    ('  '.join(f'panel{n}' for n in range(40)) + ' ' * 40, ()),
]

print_lines('expat_nmtokens.py', DOCUMENTS, '<!ATTLIST r a NMTOKENS #IMPLIED>')

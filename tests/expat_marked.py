#!/usr/bin/env python3
"""What expat makes of white space in the texts of entities in attribute values; tests/marked.txt is its output, in the lines of
expat_documents.py. tests/marked.sh replays them."""
import itertools
from expat_documents import EXAMPLES, every, print_lines

TAB, LF, CR, X = '&#9;', '&#10;', '&#13;', 'x'

# Values, and declarations in their order.
DOCUMENTS = [
    *EXAMPLES,
    # Every short text.
    *(('a&e;b', (('e', text),)) for text in every((TAB, LF, CR, X), 3)),
    # White space of the value beside that of a text.
    *((before + '&e;' + after, (('e', text),))
      for before, after, text in itertools.product(('', '\t', '\n', '\r', '\r\n'), ('', '\t', '\n', '\r', '\r\n'), (CR, LF, CR + LF))),
    # Texts in texts, and line ends cut in two by them.
    *((value, (('a', outer), ('b', inner)))
      for value, outer, inner in itertools.product(('&a;', '\r&a;&b;\n'), ('&b;', CR + '&b;' + LF, '&b;' + LF + CR),
                                                   (CR, LF, CR + LF, TAB, ''))),
    ('&a;', (('a', CR + '&b;'), ('b', LF + '&c;'), ('c', CR + LF + '&d;'), ('d', CR + LF))),
    ('&a;&a;', (('a', '&b;&b;'), ('b', '&c;' + LF), ('c', CR))),
    # References that the replacement text keeps, whose characters are never turned into spaces.
    *(('[&e;]', (('e', text),))
      for text in ('&#38;#13;', '&#38;#13;&#38;#10;', '&#38;#9;' + TAB, CR + '&#38;#10;', '&#38;#x20;', '&lt;' + CR + LF + '&gt;',
                   '&amp;' + CR, '&apos;' + LF + '&quot;', '&#38;lt;' + TAB, '&#38;#38;' + CR)),
    # Line ends as they stand in a declaration are ended there, and leave one LF.
    *(('&e;', (('e', text),)) for text in ('\r\n', '\r', '\n', '\t', '\r\r\n\n', '\r' + LF, CR + '\n', '\r\n' + CR + LF, CR + '\r\n')),
    # Line ends of XML 1.1 are characters.
    *(('½&e;', (('e', text),))
      for text in ('½', '&#133;', '&#8232;', CR + '&#133;', CR + '&#x2028;' + LF, '\x85\u2028', '€' + TAB + '\u2029')),
    # The first declaration binds.
    ('&e;', (('e', CR + LF), ('e', X))),
    ('&e;', (('e', X), ('e', CR + LF))),
]

print_lines('expat_marked.py', DOCUMENTS)

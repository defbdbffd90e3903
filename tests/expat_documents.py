"""What expat_marked.py and expat_nmtokens.py share: documents of XML 1.0 whose attribute expat reads, and the lines that say what it makes
of them. No script by itself.

A line has the value that expat hands over, with = before it, the value of the attribute as it is written, and the entities, each as
NAME=TEXT with its replacement text, with TABs between. A replacement text is what is declared after line ends and with character
references replaced (XML 1.0, 4.5), so CR and LF in it stand for themselves. What does not print is escaped as printf's %b reads it."""
import itertools
import re
from xml.parsers import expat

# What XML 1.0, 3.3.3, declares and shows: values, and declarations in their order.
EXAMPLE = (('d', '&#xD;'), ('a', '&#xA;'), ('da', '&#xD;&#xA;'))
EXAMPLES = [('\n\nxyz', EXAMPLE), ('&d;&d;A&a;&#x20;&a;B&da;', EXAMPLE), ('&#xd;&#xd;A&#xa;&#xa;B&#xd;&#xa;', EXAMPLE)]


def every(pieces, most):
    for count in range(most + 1):
        yield from map(''.join, itertools.product(pieces, repeat=count))


def replacement(declared):
    ended = declared.replace('\r\n', '\n').replace('\r', '\n')
    number = lambda digits: int(digits[1:], 16) if digits.startswith('x') else int(digits)
    return re.sub('&#(x?[0-9A-Fa-f]+);', lambda match: chr(number(match[1])), ended)


def read(value, declarations, attributes):
    entities = ''.join(f'<!ENTITY {name} "{text}">' for name, text in declarations)
    found = {}
    parser = expat.ParserCreate('UTF-8')
    parser.StartElementHandler = lambda _, values: found.update(values)
    parser.Parse(f'<!DOCTYPE r [{attributes}{entities}]><r a="{value}"/>'.encode(), True)
    return found['a']


def escaped(text):
    short = {'\\': r'\\', '\t': r'\t', '\n': r'\n', '\r': r'\r'}
    long = lambda character: ''.join(rf'\x{byte:02x}' for byte in character.encode())
    return ''.join(short.get(c) or (c if c.isprintable() else long(c)) for c in text)


def print_lines(script, documents, attributes=''):
    print(f"# expat's value, attribute value, entities with their replacement texts: tests/{script} says more.")
    for value, declarations in documents:
        texts = [f'{name}={replacement(text)}' for name, text in declarations]
        print(*map(escaped, ['=' + read(value, declarations, attributes), value, *texts]), sep='\t')

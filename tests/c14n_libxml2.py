#!/usr/bin/env python3
"""What libxml2's Canonical XML 1.0 makes of attribute values and of text; tests/c14n.txt is its output.

A line is a document <r a="VALUE">VALUE</r>: the value, the attribute as libxml2 writes it, and the text, with TABs between and a = before
each. In the document TAB, LF and CR stand by reference, as do & < " and, so that no ]]> comes about, > in the text. What does not print is
escaped as printf's %b reads it. `xmllint --c14n` (Debian's libxml2-utils) is asked. tests/c14n.sh replays the lines."""
import itertools
import random
import subprocess
import sys

BLANKS = '\t\n\r'
SPECIAL = '&<>"\'\t\n\r ;'
# Every Char below U+0080, and the characters at the edges of Char, of the lengths of UTF-8, and of XML 1.1's line ends.
ASCII = [*BLANKS, *map(chr, range(0x20, 0x80))]
EDGES = list('\x80\x85\x9f\xa0\u07ff\u0800\u2028\u2029\ud7ff\ue000\ufdd0\ufffd\U00010000\U0010ffff')


def values():
    yield ''
    yield from ASCII + EDGES
    yield ''.join(ASCII)
    yield ''.join(ASCII + EDGES)
    yield from (one + other for one, other in itertools.product(SPECIAL, repeat=2))
    yield from ('a' * length + one + 'b' for length in (15, 16, 31, 32) for one in SPECIAL)
    yield from ('&amp;', '&#xD;', '&#13;', ']]>', '<![CDATA[&]]>', '\r\n', '\r\r\n\n', 'a\tb  c\n')
    chosen = random.Random(23)
    for _ in range(120):
        weights = [8, 2, 1]
        pools = chosen.choices([SPECIAL, ASCII, EDGES], weights, k=chosen.randrange(1, 60))
        yield ''.join(map(chosen.choice, pools))


def document(value):
    names = {'&': '&amp;', '<': '&lt;', '"': '&quot;', '\t': '&#9;', '\n': '&#xA;', '\r': '&#xd;'}
    attribute = ''.join(names.get(c, c) for c in value)
    text = ''.join({**names, '>': '&gt;'}.get(c, c) for c in value)
    return f'<?xml version="1.0" encoding="UTF-8"?><r a="{attribute}">{text}</r>'


def canonical(value):
    run = subprocess.run(['xmllint', '--c14n', '-'], input=document(value).encode(), capture_output=True, check=True)
    if run.stderr:
        sys.exit(run.stderr.decode())
    written = run.stdout.decode()
    start, end = '<r a="', '</r>'
    assert written.startswith(start) and written.endswith(end), written
    attribute, text = written[len(start):-len(end)].split('">', 1)
    return attribute, text


def escaped(text):
    short = {'\\': r'\\', '\t': r'\t', '\n': r'\n', '\r': r'\r'}
    long = lambda character: ''.join(rf'\x{byte:02x}' for byte in character.encode())
    return ''.join(short.get(c) or (c if c.isprintable() else long(c)) for c in text)


print("# A value, and libxml2's attribute and text: tests/c14n_libxml2.py says more.")
for value in values():
    print(*('=' + escaped(field) for field in (value, *canonical(value))), sep='\t')

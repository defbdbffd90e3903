#!/usr/bin/env python3
"""entity_files.py HARNESS: answers on the files of entity declarations that Debian's packages have; tests/entity_files.txt is its output.

A line has a file, `whole` as it is or `bare` with a space for each comment, the first 16 digits of the SHA-256 of these bytes, and the answer, with
TABs between. What expat takes, and which has nothing but declarations of general entities with their texts, is answered by `0`, the number of
names and the first 16 digits of the SHA-256 of the program's JSON for names and texts as expat gives them: the first of each name, without the
five that it does not tell. Of everything else it is the number and both words that the harness's own reading has (harness answers). Nothing of
the files is kept here. tests/entity_files.sh replays the lines."""
import hashlib
import re
import subprocess
import sys
import tempfile
from parsers_declarations import json, read_by_expat

PACKAGES = ['docbook-xml', 'sgml-data', 'w3c-sgml-lib']
PREDEFINED = {'lt', 'gt', 'amp', 'apos', 'quot'}


def digits(content):
    return hashlib.sha256(content).hexdigest()[:16]


def files():
    listed = subprocess.run(['dpkg', '-L', *PACKAGES], capture_output=True, check=True, text=True).stdout
    return sorted(path for path in set(listed.split('\n')) if path.endswith('.ent'))


def own_answer(harness, content):
    with tempfile.NamedTemporaryFile() as file:
        file.write(content)
        file.flush()
        command = [harness, 'answers', '--calls', 'read_declarations', file.name]
        return subprocess.run(command, capture_output=True, check=True, text=True).stdout.strip()


def answer(harness, content):
    try:
        read = read_by_expat(content.decode())
    except UnicodeDecodeError:
        read = None
    if read is None or read[1]:
        return own_answer(harness, content)
    definitions = [(name, text) for name, text in read[0] if name not in PREDEFINED]
    return f'0 {len(definitions)} {digits(json(definitions).encode())}'


if __name__ == '__main__':
    print('# File, as it is or without comments, hash, answer: tests/entity_files.py says more.')
    seen = set()
    for path in files():
        with open(path, 'rb') as file:
            whole = file.read()
        for kind, content in (('whole', whole), ('bare', re.sub(b'<!--.*?-->', b' ', whole, flags=re.S))):
            if digits(content) not in seen:
                seen.add(digits(content))
                print(path, kind, digits(content), answer(sys.argv[1], content), sep='\t')

"""The rows of docs/REFUSALS.md, by number."""
import os
import re

TOP = os.path.dirname(os.path.dirname(os.path.dirname(os.path.realpath(__file__))))


def rows():
    """What each number or type comes for, in the words of the document, and the part of it that says so."""
    found, part = {}, ''
    with open(os.path.join(TOP, 'docs', 'REFUSALS.md'), encoding='utf-8') as file:
        for line in file:
            if line.startswith('## '):
                part = line[3:].strip()
            cells = [it.strip() for it in re.split(r'(?<!\\)\|', line)[1:-1]]
            if len(cells) > 2 and re.fullmatch(r'\d+', cells[0]):
                found[int(cells[0])] = (part, cells[1].strip('`'), cells[2])
            elif len(cells) > 2 and re.fullmatch(r'`\w+_exception`', cells[0]):
                found[cells[0].strip('`')] = (part, cells[0].strip('`'), cells[1])
    return found

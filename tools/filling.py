"""Paragraphs of pages filled to 140 columns; tables, headings, comments and code stay as they are."""
import re
import textwrap

WIDTH = 140
ITEM = re.compile(r'(\s*)((?:[-*+]|\d+\.)\s+)')
# A word that would be read as a mark, did a line begin with it.
MARK = re.compile(r' (?=(?:[-+*]|#+|\d+\.|\|\S*)( |$))')
CODE = re.compile(r'`[^`]+`')
STAYS = re.compile(r'\s*(\||#|<!--|```|>)')


def is_kept(line, before):
    """Whether a line stays as it is: a table's, a heading, a comment, or code by its indent behind a blank line."""
    return bool(STAYS.match(line)) or (line.startswith('    ') and before in ('', 'code') and not ITEM.match(line))


def parts(text):
    """The page's parts in order, each with whether it may be filled: a paragraph, an item of a list, or a line that stays."""
    part, before, fenced = [], '', False
    for line in text.split('\n'):
        kind = ''
        if line.lstrip().startswith('```'):
            fenced, kind = not fenced, 'stays'
        elif fenced or is_kept(line, before):
            kind = 'code'
        elif line.strip():
            kind = 'item' if ITEM.match(line) else 'text'
        if kind != 'text' and part:
            yield part, True
            part = []
        if kind in ('item', 'text'):
            part.append(line)
        else:
            yield [line], False
        before = kind
    if part:
        yield part, True


def filled(lines):
    """A paragraph or an item in lines of at most 140 columns; a span of code isn't cut."""
    mark = ITEM.match(lines[0])
    first = mark[1] + mark[2] if mark else re.match(r'\s*', lines[0])[0]
    text = ' '.join(line.strip() for line in lines)[len(first.strip()):].strip()
    text = CODE.sub(lambda it: it[0].replace(' ', '\0'), text)
    text = MARK.sub('\0', text)
    rest = ' ' * len(first)
    done = textwrap.wrap(text, WIDTH, initial_indent=first, subsequent_indent=rest, break_long_words=False, break_on_hyphens=False)
    return [line.replace('\0', ' ') for line in done]


def anew(text):
    """The page, with those paragraphs filled anew that have a line past 140 columns."""
    out = []
    for lines, may_fill in parts(text):
        out += filled(lines) if may_fill and any(len(line) > WIDTH for line in lines) else lines
    return '\n'.join(out)


def long_lines(text):
    """The numbers of the lines past 140 columns that may be filled."""
    number = 0
    for lines, may_fill in parts(text):
        yield from (at for at, line in enumerate(lines, number + 1) if may_fill and len(line) > WIDTH)
        number += len(lines)

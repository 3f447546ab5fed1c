"""What the sources say to the tools: the crates, which calls are public, their clauses, and the definitions that a clause leads to.

A definition is a word at the head of a file of specs/, with all of its lines; a constructor or a field is part of its type's. A word leads to
those that its lines name, through the file's imports."""
import functools
import glob
import os
import re

TOP = os.path.dirname(os.path.dirname(os.path.abspath(__file__)))
HANDED_ON = re.compile(r'^pub use Rattle\.(\w+)\.(specs|proofs)(?:\.(\w+)| as (\w+))$', re.M)
USE = re.compile(r'^\s*(?:pub )?(?:ghost )?use Rattle\.(\w+)\.(specs|proofs)\.([\w.+-]+?)(?: as ([\w-]+))?(?:\.\{([^}]*)\})?;?\s*$')
TYPE = re.compile(r'(?:abbrev )?(?:pub )?(?:data|record) ([^\s:({]+)')
WORD = re.compile(r'(?:abbrev )?(?:pub )?([^\s:({]+)\s*:(?!=)')
TOKEN = re.compile(r"[^\W\d][\w'-]*|[^\s\w(){}\[\],.;:]+")


@functools.cache
def read(path):
    with open(f'{TOP}/{path}', encoding='utf-8') as file:
        return file.read()


def read_if_there(path):
    return read(path) if os.path.exists(f'{TOP}/{path}') else ''


@functools.cache
def crates():
    """Each crate of crates.txt, lowest first, with the libraries that it names."""
    found = {}
    for line in read('crates.txt').split('\n'):
        name, colon, below = line.split('#')[0].partition(':')
        if colon:
            found[name.split()[0]] = below.split()
    return found


@functools.cache
def handed_on(crate, kind):
    """What a crate hands on of those below it: by its name there, the crate, and its name in that crate (none where it's the crate itself)."""
    found = HANDED_ON.findall(read_if_there(f'crates/{crate}/{kind}/Lib.antt'))
    return {alias or name: (below, name) for below, of, name, alias in found if of == kind}


def place_of(crate, kind, module):
    """The crate and the module that a path leads to, through crates that hand it on."""
    first, _, rest = module.partition('.')
    below, name = handed_on(crate, kind).get(first, (None, None))
    if below is None:
        return crate, module
    return place_of(below, kind, f'{name}.{rest}' if name else rest)


@functools.cache
def imports_of(text):
    """Each name that a text imports: the crate, the module, and its word there (none where the name is the module's)."""
    names = {}
    for line in text.split('\n'):
        found = USE.match(line)
        if found:
            crate, kind, module, alias, words = found.groups()
            crate, module = place_of(crate, kind, module)
            if alias:
                names[alias] = (crate, f'{kind}.{module}', None)
            for word in (words or '').split(','):
                word, _, other = word.strip().partition(' as ')
                if word:
                    names[other.strip() or word.strip()] = (crate, f'{kind}.{module}', word.strip())
    return names


@functools.cache
def tokens(text):
    return set(TOKEN.findall(text))


def is_named(name, text, said):
    """Whether a text, with these tokens, names a word: an operator by the marks between its places."""
    return name in said or '◌' in name and name.replace('◌', '').strip() in text


class Definitions:
    """The words that one file of specs/ defines."""

    def __init__(self, path):
        text = read(path)
        self.imports = imports_of(text)
        self.lines = {}     # by word
        self.owner = {}     # of a constructor or a field
        types, word = {}, None
        for line in text.split('\n'):
            head, indent = line.strip(), len(line) - len(line.lstrip())
            if USE.match(line) or head.startswith('--'):
                continue
            found = (TYPE.match(head) or WORD.match(head)) if indent <= 2 else None
            if found and (TYPE.match(head) or not (word in types and indent > types[word])):
                word = found.group(1)
                if TYPE.match(head):
                    types[word] = indent
            elif found or word in types:
                for name in re.match(r'(?:pub )?([^:=]*):', head).group(1).split() if ':' in head else ():
                    self.owner.setdefault(name, word)
            if word:
                self.lines.setdefault(word, []).append(line)

    def of(self, word):
        """The word that a name belongs to, and its text."""
        owner = word if word in self.lines else self.owner.get(word)
        return owner, '\n'.join(self.lines.get(owner, []))


class Believed:
    """The definitions to which clauses lead, their files lowest first."""

    files = {}

    def __init__(self):
        self.seen = {}      # by file: its words
        self.order = []     # files, each behind those that its words need

    @staticmethod
    @functools.cache
    def file_of(crate, module):
        parts = module.split('.')
        while len(parts) > 1:
            path = f'crates/{crate}/{"/".join(parts)}.antt'
            if os.path.exists(f'{TOP}/{path}'):
                return path
            parts.pop()
        return None

    def go(self, crate, module, word):
        path = self.file_of(crate, module) if word and crate in crates() else None
        if path:
            self.see(path, word)

    def see(self, path, word):
        file = self.files.get(path) or self.files.setdefault(path, Definitions(path))
        word, text = file.of(word)
        if word is None or word in self.seen.setdefault(path, set()):
            return
        self.seen[path].add(word)
        self.follow(file.imports, text)
        said = tokens(text)
        for other in [*file.lines, *file.owner]:
            if other in said:
                self.see(path, other)
        if path not in self.order:
            self.order.append(path)

    def follow(self, imports, text):
        said = tokens(text)
        for name, (crate, module, word) in imports.items():
            if is_named(name, text, said):
                self.go(crate, module, word)


def exported(crate):
    """The names that lib.rt hands out or that modules declare which it opens whole, and these modules."""
    path = f'crates/{crate}/src/lib.rt'
    if not os.path.exists(f'{TOP}/{path}'):
        return set(), set()
    text = read(path)
    names = set()
    for use in re.findall(r'pub use ([^;]*);', text):
        names |= {word.split()[-1] for word in re.findall(r'[\w]+(?: as \w+)?', use)}
    opened = set(re.findall(r'pub mod (\w+);', text))
    for module in opened:
        names |= set(re.findall(r'(?m)^pub (?:struct|enum|trait) (\w+)', read_if_there(f'crates/{crate}/src/{module}.rt')))
    return names, opened


def owner_of(rest):
    word = re.sub(r'<[^<>]*>', '', re.sub(r'<[^<>]*>', '', rest)).split(' for ')[-1].strip()
    found = re.match(r'\w+', word)
    return found.group(0) if found else None


@functools.cache
def public_calls(crate):
    """Each public call of a crate: (file, line, name, its clauses with their braces)."""
    return tuple(calls_in(crate))


def calls_in(crate):
    names, opened = exported(crate)
    for path in sorted(glob.glob(f'{TOP}/crates/{crate}/src/**/*.rt', recursive=True)):
        path = os.path.relpath(path, TOP)
        module = os.path.splitext(os.path.relpath(path, f'crates/{crate}/src'))[0]
        lines, at, owner, in_trait, by_trait = read(path).split('\n'), 0, None, False, False
        while at < len(lines):
            head = re.match(r'^(pub )?(trait|impl)\b(.*)', lines[at])
            if head:
                owner, in_trait = owner_of(head.group(3)), head.group(2) == 'trait' and bool(head.group(1))
                by_trait = head.group(2) == 'impl' and ' for ' in head.group(3)
            elif lines[at] == '}':
                owner, in_trait, by_trait = None, False, False
            found = re.match(r'^(\s*)(pub )?fn (\w+)', lines[at])
            if found:
                end = at
                while end < len(lines) - 1 and not re.match(r'^\s*\{|.*\{$|.*;$|.*\{\}$', lines[end]):
                    end += 1
                called = found.group(3)
                by_name = called in names if owner is None else owner in names
                if found.group(2) and (by_name or module in opened or module == 'lib') or (in_trait or by_trait) and owner in names:
                    text = '\n'.join(lines[at:end + 1])
                    said = ' '.join(re.findall(r'(?:requires|ensures)[^{]*\{(.*?)\}\s*$', text, re.S | re.M))
                    yield path, at + 1, called, said
                at = end
            at += 1


@functools.cache
def believed_by(crate):
    """The definitions to which the clauses of a crate's public calls lead."""
    return believed_of(public_calls(crate))


def believed_of(calls):
    """The definitions to which the clauses of these calls lead."""
    found = Believed()
    for path, _, _, said in calls:
        found.follow(imports_of(read(path)), said)
    return found

"""The functions of Rattle sources, found as text: what the checks of this folder share."""
import dataclasses
import re

HEAD = re.compile(r'^[ \t]*(?:#\[[^\]]*\]\s*)*(?P<pub>pub\s+)?(?:const\s+)?(?:unsafe\s+)?(?P<extern>extern\s*(?:"[^"]*"\s*)?)?\bfn\s+(?P<name>\w+)', re.M)
CLAUSE = re.compile(r'\b(?:(?:requires|ensures)\b\*?(?:\s+\w+)?|ghost\s+\w+\s*:?)\s*$')
CYCLE = re.compile(r'#\[cycle\((\w+)\)\]')
IMPL = re.compile(r'^impl(?:<[^>]*>)?\s+([^{]*)\{', re.M)
OF_TRAIT = re.compile(r'(?:\w+::)*(\w+)(?:<(?:\w+::)*(\w*)[^>]*>)?\s+for\s+(?:\w+::)*(\w+)')
MODULE = re.compile(r'^(pub\s+)?mod\s+(\w+)\s*;', re.M)


@dataclasses.dataclass
class Function:
    path: str  # the folder of its proof below proofs/: modules, type and name, parted by slashes
    file: str  # from the crate's folder
    public: bool  # another crate, or C, can call it: by its name, or by the trait whose impl it stands in
    extern: bool
    start: int  # where its name stands
    head: str  # signature and clauses
    body: tuple  # where its braces open and end
    lines: tuple  # the first and the last line of all this, its attributes too
    cycle: str  # the name that it shares with the functions that it and they call in turn, or nothing
    law: str  # in an impl of a trait: what its `ghost NAME_gives` says of it, or nothing

    def code(self, texts):
        """Its body, of the sources' texts by their files."""
        return texts[self.file][slice(*self.body)]


def without_comments(text):
    """The text with spaces for its comments: every place stays what it was."""
    return re.sub(r'//[^\n]*', lambda m: ' ' * len(m.group(0)), text)


def without_bytes(text):
    """The text with spaces for its byte literals, which may hold a brace: every place stays what it was."""
    return re.sub(r"b'(?:\\[^\n]|[^\\\n])[^'\n]*'", lambda m: ' ' * len(m.group(0)), text)


def skip(text, at, opening, closing):
    """The position after the brackets that open at `at`."""
    level = 0
    for i in range(at, len(text)):
        level += {opening: 1, closing: -1}.get(text[i], 0)
        if level == 0:
            return i + 1
    return len(text)


def body_of(text, start):
    """Where the body opens of the function that starts there: the first brace that belongs to no clause."""
    depth, i = 0, start
    while i < len(text):
        c = text[i]
        if c in '([':
            depth += 1
        elif c in ')]':
            depth -= 1
        elif c == '{' and depth == 0:
            if not CLAUSE.search(text[start:i]):
                return i
            i = skip(text, i, '{', '}')
            continue
        i += 1
    return len(text)


def implemented(head):
    """What rt calls an impl: its type, or as U32FromFault that of a trait."""
    m = OF_TRAIT.match(head)
    if not m:
        return re.match(r'\w+', head).group(0)
    of, trait = m.group(3), m.group(1)
    return of[0].upper() + of[1:] + trait + (m.group(2) or '')


def law_of(text, name):
    """What an impl's text says of its function of this name: `λ x r. ..`, of what is given and what comes of it."""
    m = re.search(r'\bghost\s+%s_gives\s*=\s*\{' % name, text)
    return text[m.end():skip(text, m.end() - 1, '{', '}') - 1] if m else ''


def functions_of(text, file, modules=(), public=True):
    """The functions of a source's text, which stands in these modules; public ones only if the modules are, or exported to C."""
    text = without_bytes(without_comments(text))
    impls = [(m.group(1), m.end() - 1, skip(text, m.end() - 1, '{', '}')) for m in IMPL.finditer(text)]
    for m in HEAD.finditer(text):
        opens = body_of(text, m.start('name'))
        around = [impl for impl in impls if impl[1] < m.start() < impl[2]]
        path = '/'.join([*modules, *[implemented(head) for head, _, _ in around], m.group('name')])
        of_trait = [text[start:end] for head, start, end in around if re.search(r'\sfor\s', head)]
        extern = bool(m.group('extern'))
        shown = (bool(m.group('pub')) or bool(of_trait)) and (public or extern)
        ends = skip(text, opens, '{', '}')
        cycle = CYCLE.search(m.group(0))
        lines = (text.count('\n', 0, m.start()) + 1, text.count('\n', 0, ends) + 1)
        head = text[m.start('name'):opens]
        law = ''.join(law_of(impl, m.group('name')) for impl in of_trait)
        yield Function(path, file, shown, extern, m.start('name'), head, (opens, ends), lines, cycle.group(1) if cycle else '', law)


def functions(crate):
    """The functions of a crate's folder. Nothing of a program is public."""
    program = (crate / 'src' / 'main.rt').exists()

    def module(file, modules, public):
        text = file.read_text(encoding='utf-8')
        yield from functions_of(text, str(file.relative_to(crate)), modules, public)
        for shown, name in MODULE.findall(without_comments(text)):
            yield from module(crate / 'src' / '/'.join([*modules, name + '.rt']), (*modules, name), public and bool(shown))

    yield from module(crate / 'src' / ('main.rt' if program else 'lib.rt'), (), not program)

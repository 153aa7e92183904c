"""What the laws of a crate rest on, in its specs and its lemmas, found as text: the declarations that a law names, and those that these name in turn.

A declaration is a paragraph that begins at the margin; a block of several (`mutual`, `module`, a record) counts as one. A
word of it is looked up among the declarations of its own file and the names that the file imports from its crate. A local
variable of such a name counts too, and so does every record with a field of a name that is selected: more is found than
is there, never less. What a tactic finds by itself it finds among hypotheses and library lemmas, not among declarations.
"""
import re

MODIFIERS = {'pub', 'abbrev', 'unfoldable', 'mutual', 'data', 'record', 'module', 'infix', 'infixl', 'infixr'}
BLOCK = re.compile(r'(?:(?:pub|abbrev|unfoldable) )*(data|record|mutual|module)\b')
IMPORT = re.compile(r"^(?:(?:unfoldable|pub) )*use Rattle\.(\w+)\.((?:specs|proofs)\.[\w.']+?)(?:\.\{([^}]*)\}| as (\S+))?$", re.M)
OWN_IMPORT = r'^(?:(?:unfoldable|pub) )*use Rattle\.%s\..*$'
LINE_OF_USE = re.compile(r'^(?:(?:unfoldable|pub) )*(?:use|mod) .*$', re.M)
WORDS = re.compile(r'[^\s(){}\[\],;]+')
OF_FUNCTIONS = ('Invariants.antt', 'Answers.antt', 'Proof.antt')
BOUND = {'do': ('>>=', '>>')}  # what a word stands for without naming it


def spellings(name):
    """A name, and the parts of an operator."""
    return {name, *(part for part in name.split('◌') if part)}


def file_of(module):
    return module.replace('.', '/') + '.antt'


def blanked(pattern, text):
    """The text with spaces for what matches: every place stays what it was."""
    return pattern.sub(lambda found: ' ' * len(found.group(0)), text)


class Declaration:
    def __init__(self, file, start, text):
        self.file, self.start, self.end = file, start, start + len(text)
        self.text = blanked(LINE_OF_USE, text)
        self.names, self.fields = set(), set()
        block = BLOCK.match(text)
        for line in self.text.splitlines():
            words = [word for word in line.split() if word not in MODIFIERS]
            inner = len(line) - len(line.lstrip())
            if words and re.search(r' :(?: |$)', line) and (inner == 0 or block and inner <= 4):
                self.names |= spellings(words[0])
                if inner and block.group(1) != 'mutual':
                    self.fields.add(words[0])

    def words(self):
        found = set(WORDS.findall(self.text))
        return found.union(*(BOUND[word] for word in found & set(BOUND)))


class Specs:
    """The declarations of a crate's specs and lemmas: a text for each file, as `specs/Laws/Rows.antt`."""

    def __init__(self, texts, crate):
        self.texts = texts
        self.declarations = []
        self.imports = {}
        for file, text in texts.items():
            text = blanked(re.compile(r' *--.*'), text)
            unread = [line for line in re.findall(OWN_IMPORT % crate, text, re.M) if not IMPORT.match(line.rstrip())]
            if unread:
                raise ValueError('%s: what this imports cannot be told: %s' % (file, unread[0]))
            self.imports[file] = [
                (file_of(module), names, alias or not names and module.split('.')[-1])
                for owner, module, names, alias in IMPORT.findall(text) if owner == crate]
            starts = [0] + [found.end() for found in re.finditer(r'\n *\n(?=\S)', text)] + [len(text)]
            self.declarations += [Declaration(file, start, text[start:end]) for start, end in zip(starts, starts[1:])]

    def named(self, file, name, seen=()):
        """The declarations of a name that a file has or imports."""
        found = {d for d in self.declarations if d.file == file and name in d.names}
        for module, names, alias in self.imports.get(file, ()):
            for item in names.split(','):
                own, _, new = item.strip().partition(' as ')
                if name in spellings(new or own) and module not in seen:
                    found |= self.named(module, own, (*seen, file))
            if alias and name.startswith(alias + '.'):
                found |= self.named(module, name[len(alias) + 1:], (*seen, file))
        return found

    def uses(self, declaration):
        found = set()
        for word in declaration.words():
            found |= self.named(declaration.file, word)
            first, dot, last = word.rpartition('.')
            if dot:
                whole = re.match(r'Rattle\.\w+\.((?:specs|proofs)\..+)', first)
                found |= self.named(file_of(whole.group(1)), last) if whole else set()
                parts = word.split('.')
                found |= {d for d in self.declarations if d.fields & set(parts[1:])}
                for many in range(1, len(parts)):
                    found |= self.named(declaration.file, '.'.join(parts[:many]))
        return found

    def rests_on(self, law):
        """All declarations on which a law rests, itself among them."""
        todo = [d for d in self.declarations if law in d.names]
        found = set()
        while todo:
            declaration = todo.pop()
            if declaration not in found:
                found.add(declaration)
                if not hasattr(declaration, 'used'):
                    declaration.used = self.uses(declaration)
                todo += declaration.used
        return found

    def changed(self, file, old, new):
        """The declarations that a replacement changes; None if that cannot be told. More names on a line of imports change none."""
        text = self.texts.get(file, '')
        at = text.find(old)
        if at < 0:
            return None
        line = text[text.rfind('\n', 0, at) + 1:].partition('\n')[0]
        if LINE_OF_USE.match(line):
            return set() if set(WORDS.findall(old)) <= set(WORDS.findall(new)) else None
        return {d for d in self.declarations if d.file == file and d.start <= at and at + len(old) <= d.end} or None


def specs_of(crate):
    """Those of a crate's folder; in proofs/ all files but those of the functions."""
    own = [path for part in ('specs', 'proofs') for path in sorted((crate / part).rglob('*.antt')) if path.name not in OF_FUNCTIONS]
    return Specs({str(path.relative_to(crate)): path.read_text(encoding='utf-8') for path in own}, crate.name)

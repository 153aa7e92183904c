"""The wrong programs in the must-fail edits: what the checks of this folder share.

A file crates/CRATE/must-fail/*.edit holds wrong programs, each under a heading `== LABEL`, with comments, a line
`refused-by: NAME ..` and replacements: `file:`, `old:` and `new:` lines, where a `file:` holds for all pairs after it.
A name of `refused-by` is a law, or a goal of a function's proof as FOLDER:GOAL, where FOLDER is that of its files under
proofs/: modules, type and name, as `view/take:returns`. Functions that call one another share a folder +NAME, by their
`#[cycle(NAME)]`; their goals stand there as `run/+walk:step-returns`, after the function's name.
"""
import dataclasses
import re

HEADING = re.compile(r'^== (\S+)$', re.M)
REPLACEMENT = re.compile(r'^(file|old|new): ?(.*)$', re.M)


@dataclasses.dataclass
class Program:
    label: str
    text: str  # all that stands under the heading

    def stated(self, key):
        """What its lines of this key say."""
        return re.findall(r'^%s: *(\S.*)$' % key, self.text, re.M)

    def refusers(self):
        return [name for line in self.stated('refused-by') for name in line.split()]

    def changes(self):
        """Its replacements: a file, the old text and the new."""
        found, file, old = [], '', ''
        for key, value in REPLACEMENT.findall(self.text):
            if key == 'file':
                file = value
            elif key == 'old':
                old = value
            else:
                found.append((file, old, value))
        return found


def programs_of(text):
    """The wrong programs of an edit's text; what stands before the first heading has none, and the label ''."""
    before, *parts = HEADING.split(text)
    found = [Program('', before)] if before.strip() else []
    return found + [Program(label, below) for label, below in zip(parts[::2], parts[1::2])]


def edits(crate):
    """(file, its wrong programs) for each edit of a crate's folder."""
    for file in sorted((crate / 'must-fail').glob('*.edit')):
        yield file, programs_of(file.read_text(encoding='utf-8'))


def function_of(refuser, listed=()):
    """The function whose goal this is, of those listed, as its path; None of a law."""
    folder, colon, goal = refuser.partition(':')
    if not colon:
        return None
    module, slash, name = folder.rpartition('/')
    if not name.startswith('+'):
        return folder
    goal = '-%s-' % goal.replace('::', '-')
    owners = [f.path for f in listed if f.cycle == name[1:] and f.path.startswith(module + slash) and '-%s-' % f.path.split('/')[-1] in goal]
    return max(owners, key=lambda path: len(path.split('/')[-1]), default=folder)

"""What `rt ci` has built: the crates of crates.txt, and the words by which the kit's compiler reads them.

`rt ci` leaves the library of each crate in its out/rlib, as it was proved. What else the gate checks is checked over
these, so that no library is proved twice. Nothing here looks at the sources of a library: it is for the run in which
`rt ci` has just ended, or has just proved that library."""
import itertools
import os
import pathlib
import re
import shutil
import sys

TOP = pathlib.Path(__file__).resolve().parent.parent
# A row of crates.txt: a crate, whether it is a static library, and what it stands on.
ROW = re.compile(r'(\w+)( +staticlib)?[^:]*:(.*)')


def kit():
    """The folder of the kit whose `rt` is in the path."""
    rt = shutil.which('rt')
    if not rt:
        sys.exit('there is no rt in the path: the Rattle kit is needed')
    return pathlib.Path(os.path.realpath(rt)).parent.parent


class Crates:
    """The crates of a crates.txt: what each stands on, and which are static libraries."""

    def __init__(self, top=TOP):
        self.top, self.kit = top, kit()
        lines = [line.partition('#')[0].strip() for line in (top / 'crates.txt').read_text().splitlines()]
        rows = [ROW.fullmatch(line) for line in lines if line]
        self.uses = {row[1]: row[3].split() for row in rows}
        self.static = {row[1] for row in rows if row[2]}

    def folder(self, name):
        return self.top / 'crates' / name

    def library(self, name):
        """The library of a crate, or of one that the kit brings."""
        if name in self.uses:
            return self.folder(name) / 'out' / 'rlib' / f'{name}.rlib'
        return self.kit / 'rlibs' / f'{name}.rlib'

    def below(self, name):
        """The repository's crates that a crate stands on, each after those that it stands on."""
        found = []
        for it in self.uses[name]:
            if it in self.uses:
                found += [more for more in [*self.below(it), it] if more not in found]
        return found

    def lacking(self, name):
        """The crates below that have no library of `rt ci`'s: one with a stamp beside it is of another command."""
        folders = {it: self.library(it) for it in self.below(name)}
        return [it for it, at in folders.items() if not (at / 'format').is_file() or (at.parent / 'stamp').exists()]

    def once_proved(self, names, lines):
        """Yields each of these crates once all those below it are proved, as the lines say, one a crate; and at the end
        the others, which lack a library."""
        proved, left = set(), list(names)
        for line in itertools.chain([''], lines):
            proved.add(line.strip())
            for name in [it for it in left if proved.issuperset(self.below(it))]:
                left.remove(name)
                yield name
        yield from left

    def words(self, name):
        """The words that the kit's compiler takes for a crate, after `check` or `build`."""
        main = self.folder(name) / 'src' / 'main.rt'
        words = ['--crate-name', name, f'src/{"main" if main.is_file() else "lib"}.rt']
        for it in ['std', *self.uses[name]]:
            words += ['--extern', f'{it}={self.library(it)}']
        for folder in [self.kit / 'rlibs', *(self.library(it).parent for it in self.below(name))]:
            words += ['-L', f'dependency={folder}']
        words += ['--antt-project', f'{self.kit}/rattle/logic/antt-project.json']
        words += ['--logic-built', f'{self.kit}/logic_built', '--links', f'{name}=']
        return words + ['--crate-type', 'staticlib'] * (name in self.static)

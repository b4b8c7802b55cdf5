"""The edits of a crate, and checks of the crate with some of them: docs/try-edits says what they are for."""
import dataclasses
import itertools
import pathlib
import re
import shutil
import subprocess
import tempfile

PARTS = ('src', 'specs', 'proofs')
HEAD = re.compile(r'( *)(?:pub(?:\([^)]*\))? )?(?:const |unsafe |extern "C" )*fn (\w+)')
SOURCE = re.compile(r'src/[\w/]+\.rt')
IMPL = re.compile(r'(?:unsafe )?impl(<.*?>)? (?:([\w:]+)(?:<(.*)>)? for )?&?(\w+)')


@dataclasses.dataclass(frozen=True)
class Function:
    """A function of a file that `rt fmt` has laid out: its name, and its lines: those of its head, of the brace that
    begins its body, and of the one that ends it. Of a method the name is `Type::method`, of a trait's impl
    `TypeTrait::method`, as the prover writes them behind the type's module; of another function its path."""

    name: str
    file: str
    head: int
    begin: int
    end: int

    def has(self, line):
        return self.head <= line <= self.end


def module_of(file):
    return '::'.join(it for it in pathlib.PurePath(file).with_suffix('').parts[1:] if it not in ('lib', 'main'))


def name_of(path):
    """The name of a function, of the path that the prover writes, or of the folder of its written proof."""
    parts = path.replace('/', '::').split('::')
    return '::'.join(parts[-2:] if len(parts) > 1 and parts[-2][0].isupper() else parts)


def owner_of(parameters, trait, arguments, of):
    """The name that the prover gives an impl's methods: its type, its trait, and the types that the trait is of."""
    own = re.findall(r'\w+', parameters or '')
    types = [it for it in (arguments or '').split(', ') if re.fullmatch(r'\w+', it) and it not in own]
    return ''.join([of, (trait or '').rpartition('::')[2], *types])


def functions(file, text):
    """The functions of a file, each before those that stand in it. Lines count from 1."""
    lines, found, module, owner = text.split('\n'), [], module_of(file), ''
    for at, line in enumerate(lines):
        if line and line[0] not in ' }':
            impl = IMPL.match(line)
            owner = owner_of(*impl.groups()) if impl else ''
        if head := HEAD.match(line):
            indent = head[1]
            end = next((k for k in range(at, len(lines)) if lines[k] == indent + '}'), at)
            begin = next((k for k in range(at, end) if is_brace(lines[k], indent, k == at)), end)
            name = [owner if indent and owner else module, head[2]]
            found.append(Function('::'.join(filter(None, name)), file, at + 1, begin + 1, end + 1))
    return found


def is_brace(line, indent, is_head):
    """Whether a line of a function's head has the brace that begins its body."""
    return line == indent + '{' or line.endswith(' {') and (is_head or line.startswith(indent + ')'))


def innermost(found, line):
    return next((it for it in reversed(found) if it.has(line)), None)


def span_of(path, text, name):
    """Where the function of this name, as the prover writes it behind its module, begins and ends in a file's text."""
    found = [it for it in functions(path, text) if it.name == name]
    if len(found) != 1:
        raise ValueError(f'{path} has {len(found)} functions that are named {name}, and not one')
    lines = [0, *(at.end() for at in re.finditer('\n', text)), len(text)]
    return lines[found[0].head - 1], lines[found[0].end]


def overlap(one, two):
    """Whether the old texts of two pairs overlap."""
    return one[0] == two[0] and one[1] < two[1] + len(two[2]) and two[1] < one[1] + len(one[2])


class Edit:
    """An edit: its pairs, the function whose body it changes, and what it comes to: a refusal, or a fault of its own."""

    def __init__(self, file, folder):
        self.name, self.refusal, self.fault, self.function, self.pairs = file.stem, None, None, None, []
        try:
            for path, within, old, new in self.read(file.read_text()):
                if not SOURCE.fullmatch(path):
                    raise ValueError(f'{path} is no source of the crate')
                text = (folder / path).read_text()
                span = span_of(path, text, within) if within else (0, len(text))
                if text.count(old, *span) != 1:
                    raise ValueError(f'its old text stands {text.count(old, *span)} times in {within or path}, '
                                     f'and not once: {old}')
                self.pairs.append((path, text.index(old, *span), old, new))
            if all(old == new for _, _, old, new in self.pairs):
                raise ValueError('it changes nothing')
            if any(overlap(*both) for both in itertools.combinations(self.pairs, 2)):
                raise ValueError('two of its old texts overlap')
            self.function = self.body_of(folder)
        except (OSError, ValueError) as error:
            self.fault = f"it can't be applied: {error}"

    @staticmethod
    def read(text):
        """Its pairs: a file, the function in which the old text is to be found (or None: anywhere), that old text, and
        the new text in its place."""
        path = within = old = None
        for line in filter(None, text.splitlines()):
            word, _, rest = line.partition(':')
            if word == 'file' and not old:
                path, within = rest.strip(), None
            elif word == 'fn' and path and not old:
                within = rest.strip()
            elif word == 'old' and path and not old:
                old = rest.removeprefix(' ')
            elif word == 'new' and old:
                yield path, within, old, rest.removeprefix(' ')
                old = None
            else:
                raise ValueError(f'this line is out of place: {line}')
        if old:
            raise ValueError(f'this old text has no new one: {old}')

    def body_of(self, folder):
        """The function in whose body all its pairs stand; or None, if they stand outside of functions."""
        found = set()
        for path, at, old, new in self.pairs:
            text = (folder / path).read_text()
            line = text.count('\n', 0, at) + 1
            function = innermost(functions(path, text), line)
            # (the line of the brace is in the body if all that is new comes after the brace)
            after_brace = old.endswith('{') and new.startswith(old)
            if function and (line < function.begin or line == function.begin and not after_brace):
                raise ValueError(f'it changes the signature or the contract of {function.name}')
            found.add(function)
        if len(found) > 1:
            raise ValueError('it changes more than the body of one function')
        return found.pop()

    def meets(self, other):
        """Whether both can't go into one check, since they are of one function."""
        return self.function.name == other.function.name

    def told(self):
        return self.fault and f'FAILED: {self.fault}' or self.refusal and f'refused: {self.refusal}' \
            or 'FAILED: not refused, the crate is proved with it'


def batches(edits):
    """Edits of different functions' bodies, in groups that are each tried in one check."""
    found = []
    for edit in edits:
        batch = next((it for it in found if not any(edit.meets(other) for other in it)), None)
        if batch:
            batch.append(edit)
        else:
            found.append([edit])
    return found


# What a function returns that may fail, and what it fails with.
SIGNATURE = re.compile(r'.*? -> (?:\w+::)*Result<[^{]*?, (AllocError)>\s*(?:requires|ensures|where|{)|'
                       r'.*? -> (fmt::Result) {', re.S)
ERRORS = {'AllocError': 'AllocError', None: 'fmt::Error'}

# What the prover prints of an obligation that it can't prove, at its place in the source; of an error in a written proof;
# of a function.
UNPROVED = re.compile(r'(?:note: )?(?:\./)?(src/\S+?):(\d+):\d+: (it is not proved that .*)')
MISPROVED = re.compile(r'(?:\./)?proofs/(\S+)/\w+\.antt:\d+:\d+: error: (.*)')
VERDICT = re.compile(r'fn \w+::(\S+): (?:not proved|no proof|could not tell)\b.*')
# An error of the compiler, before any proof.
REJECTED = re.compile(r'(?:\./)?(src/\S+?):(\d+):\d+: error\[.*')
# An error that says nothing of a contract: a written proof names what an edit took away, or cites such a proof; or the
# prover met a limit of its own.
SAYS_NOTHING = re.compile(r'has no field|is not in scope|has no `|was not admitted|stopped at the step limit|'
                          r'ran out of (?:stack|the (?:steps|memory))|outgrew the memory limit')
SECOND_LINE = re.compile(r'^(\S.*)\n  ', re.M)
NO_FUNCTION = re.compile(r'(?:has no function|several functions are named) `([^`]*)`')
JUDGED = re.compile(r'logic=not-proved|only=\d+ proved=\d+')


class Report:
    """What a check said of each function."""

    def __init__(self, ran, files):
        # (a message may go on in a second line, which begins with two spaces; what comes after that are details)
        lines = SECOND_LINE.sub(r'\1 ', ran.stdout.rstrip()).split('\n')
        self.reasons, self.rejected, self.unjudged = {}, {}, None
        self.is_proved = not ran.returncode
        self.is_judged = ran.returncode == 1 and bool(JUDGED.match(lines[-1]))
        self.last = f'it was killed by signal {-ran.returncode}' if ran.returncode < 0 else lines[-1]
        for line in lines:
            self.note(line, files)

    def note(self, line, files):
        place = UNPROVED.match(line) or REJECTED.match(line)
        if place:
            function = innermost(files(place[1]), int(place[2]))
            found = self.rejected if place.re is REJECTED else self.reasons
            found.setdefault(function and function.name, line)
        elif proof := MISPROVED.match(line):
            if SAYS_NOTHING.search(proof[2]):
                self.unjudged = self.unjudged or line
            else:
                self.reasons.setdefault(name_of(proof[1]), line)
        elif (verdict := VERDICT.match(line)) and '`search` did not prove' in line:
            self.reasons.setdefault(name_of(verdict[1]), line)


class Trial:
    """Checks of one crate with edits, each over what the checks before have proved."""

    def __init__(self, crates, name, kept):
        self.name, self.folder, self.kept, self.checks, self.whole = name, crates.folder(name), kept, 0, set()
        # (tests whose threads wait for each other may run beside: these come first)
        self.command = ['nice', crates.kit / 'bin' / 'rattle', 'check', *crates.words(name), '--jobs', '1',
                        '--incremental', kept]

    def functions(self, file):
        return functions(file, (self.folder / file).read_text())

    def try_all(self, edits):
        """Tries edits of functions' bodies in batches, and alone whatever these leave open."""
        for batch in batches([it for it in edits if it.function]):
            self.try_batch(batch)
        for edit in edits:
            if not edit.refusal and not edit.fault:
                self.try_alone(edit)

    def try_batch(self, edits):
        report = self.check(edits)
        for edit in edits:
            if edit.function.name in report.rejected:
                edit.fault = f"it doesn't compile: {report.rejected[edit.function.name]}"
            elif report.is_judged:
                edit.refusal = report.reasons.get(edit.function.name)
        rest = [it for it in edits if not it.fault]
        if rest and len(rest) < len(edits):
            self.try_batch(rest)

    def try_alone(self, edit):
        report = self.check([edit], stubbed=False)
        if report.rejected:
            edit.fault = f"it doesn't compile: {next(iter(report.rejected.values()))}"
        elif report.is_judged and report.reasons:
            edit.refusal = next(iter(report.reasons.values()))
        elif not report.is_proved:
            edit.fault = f'nothing is judged: {report.unjudged or report.last}'

    def check(self, edits, stubbed=True):
        """Checks a copy of the crate with these edits: their functions and what these call, or all of it. An edit that is
        tried alone is refused for any reason, so no other body may be a stub then."""
        only = {it.function.name: module_of(it.function.file) for it in edits if it.function}
        with tempfile.TemporaryDirectory(prefix='try-edits-') as folder:
            room = pathlib.Path(folder)
            self.copy(edits, room, stubbed)
            while True:
                self.checks += 1
                words = [word for name in only if all(only) for word in ('--only', name)]
                ran = subprocess.run([*self.command, *words], cwd=room, stdin=subprocess.DEVNULL, stdout=subprocess.PIPE,
                                     stderr=subprocess.STDOUT, text=True, errors='replace')
                unknown = NO_FUNCTION.search(ran.stdout) if ran.returncode == 2 else None
                if not unknown or unknown[1] not in only:
                    report = Report(ran, self.functions)
                    break
                # (the prover writes its name otherwise, or has several: then all of its module, or of the crate)
                module = only.pop(unknown[1])
                only[module] = ''
        # (a body that fails at once may not compile, as where a value is owned that has to be moved on: it stays whole)
        owning = set(report.rejected) - {it.function.name for it in edits if it.function} - self.whole
        if stubbed and all(only) and owning - {None}:
            self.whole |= owning
            return self.check(edits)
        return report

    def copy(self, edits, room, stubbed):
        for part in PARTS:
            if (self.folder / part).is_dir():
                shutil.copytree(self.folder / part, room / part)
        pairs = [pair for edit in edits for pair in edit.pairs]
        if stubbed:
            pairs += self.stubs({edit.function.name for edit in edits}, room)
        # (the last first, so that the places of the others stay)
        for path, at, old, new in sorted(pairs, key=lambda it: -it[1]):
            text = (room / path).read_text()
            (room / path).write_text(text[:at] + new + text[at + len(old):])

    def stubs(self, edited, room):
        """Bodies for the functions that aren't edited: whoever may fail, fails at once. The edited ones are judged by the
        contracts of what they call, so nothing is gained by proving again what `rt ci` has proved, and this is quick to
        prove. Removes the written proofs of these bodies, and returns the pairs."""
        found, names = [], set()
        for file in sorted(room.glob('src/**/*.rt')):
            path, text = str(file.relative_to(room)), file.read_text()
            lines = text.split('\n')
            for function in functions(path, text):
                head = SIGNATURE.match('\n'.join(lines[function.head - 1:function.begin]))
                if function.name not in edited | self.whole and head and function.begin < function.end - 1:
                    at = sum(len(line) + 1 for line in lines[:function.begin])
                    body = '\n'.join(lines[function.begin:function.end - 1])
                    # (of as many lines, since the prover names those)
                    found.append((path, at, body, f'Err({ERRORS[head[1]]})' + '\n' * body.count('\n')))
                    names.add(function.name)
        for proof in [it for it in room.glob('proofs/**/') if name_of(str(it.relative_to(room / 'proofs'))) in names]:
            shutil.rmtree(proof)
        return found

"""The rows of cases/: command lines, what they read, and what comes of them.

A file of cases is TOML. A table is a case. Its keys hold for each table of its `rows`, whose own keys come first; a
case without `rows` is one row. The keys:

    words           a command line without the program's name, or a list of these, which all have the same answer
    over            "both lists": each command line once more with --chain behind it, for the same answer
    slowly          true: each once more with a byte at a time read and written, and each read interrupted before it
    last            a further word, which need not be text
    files           files that lie where the program runs, by name
    stdin           "fails": an input that can't be read
    stdout, stderr  "full": a device that takes nothing; stdout also "closed": a pipe whose reading end is closed
    input           the input, empty unless it is given
    output, errors  what the program writes, whole; nothing unless it is given, or one of the next is
    output-start, output-parts, output-end, errors-start, errors-parts
                    what that begins with, what stands in it, what it ends with
    counts          lines of the output, by their words, and the number behind them, or [least, most]
    status          the exit status, 0 unless it is given

An output that begins with <svg is a picture, and has to be well-formed XML.

A text is a string; or a list of strings, bytes as numbers, { text = .., times = .. }, { file = .. } from the top of the
repository, and { named = .. } of the file's table `texts`."""
import contextlib
import os
import pathlib
import re
import tempfile
import tomllib
import xml.etree.ElementTree

from program import HERE, TOP, Trouble, command_line, shown

CASES = HERE / 'cases'

TEXT = (str, list)
TYPES = {'words': TEXT, 'over': str, 'slowly': bool, 'last': TEXT, 'files': dict, 'stdin': str, 'stdout': str,
         'stderr': str, 'input': TEXT, 'output': TEXT, 'output-start': TEXT, 'output-parts': TEXT, 'output-end': TEXT,
         'errors': TEXT, 'errors-start': TEXT, 'errors-parts': TEXT, 'counts': dict, 'status': int}

# The values of each of these keys.
VALUES = {'over': ['both lists'], 'slowly': [True], 'stdin': ['fails'], 'stdout': ['full', 'closed'], 'stderr': ['full']}


class Case:
    """A row: its name, its keys, and the named texts of its file."""

    def __init__(self, name, keys, texts):
        self.name, self.keys, self.texts = name, keys, texts
        for key, value in keys.items():
            if not isinstance(value, TYPES.get(key, ())) or value not in VALUES.get(key, [value]):
                raise Trouble(f'{name}: a case has no {key} = {value!r}')
        # (no word at all is a command line too, but a list of none would run nothing)
        if keys.get('words', []) == []:
            raise Trouble(f'{name}: it has no words')

    def text(self, value):
        """The bytes of a text."""
        match value:
            case str():
                return value.encode()
            case int() if 0 <= value < 256:
                return bytes([value])
            case list():
                return b''.join(self.text(it) for it in value)
            case {'text': text, 'times': int(times)}:
                return self.text(text) * times
            case {'named': name} if name in self.texts:
                return self.text(self.texts[name])
            case {'file': name} if (TOP / name).is_file():
                return (TOP / name).read_bytes()
        raise Trouble(f'{value!r} is no text')

    def texts_of(self, key):
        """The texts of a key that has one or a list of these."""
        value = self.keys.get(key, [])
        return [self.text(it) for it in (value if isinstance(value, list) else [value])]

    def command_lines(self):
        """The words of each run of the program."""
        given = self.keys['words']
        words = [str(it).split() for it in (given if isinstance(given, list) else [given])]
        last = [self.text(self.keys['last'])] if 'last' in self.keys else []
        chains = [[], ['--chain']] if 'over' in self.keys else [[]]
        return [[*it, *chain, *last] for it in words for chain in chains]

    def wrong(self, program):
        """Runs the program in each way, and yields what is wrong."""
        data = self.text(self.keys.get('input', ''))
        ways = [(words, is_slow) for words in self.command_lines() for is_slow in (False, True)]
        for words, is_slow in ways:
            if is_slow and ('slowly' not in self.keys or program.libraries is None):
                continue
            slow = {'library': 'slow_io', 'INTERRUPTED': '1'} if is_slow else {}
            with self.surroundings(program) as (folder, streams):
                got, _ = program.run(words, data, folder=folder, streams=streams, **slow)
            how = command_line(words) + (', a byte at a time' if is_slow else '')
            yield from (f'{how}: {difference}' for difference in self.differences(got))

    @contextlib.contextmanager
    def surroundings(self, program):
        """A folder with the files of the case, and the streams that it has in the place of the usual ones."""
        with contextlib.ExitStack() as opened:
            folder = opened.enter_context(tempfile.TemporaryDirectory(dir=program.folder))
            for name, text in self.keys.get('files', {}).items():
                pathlib.Path(folder, name).write_bytes(self.text(text))
            full = [key for key in ('stdout', 'stderr') if self.keys.get(key) == 'full']
            streams = {key: opened.enter_context(open('/dev/full', 'wb')) for key in full}
            if self.keys.get('stdout') == 'closed':
                reader, streams['stdout'] = os.pipe()
                os.close(reader)
                opened.callback(os.close, streams['stdout'])
            if 'stdin' in self.keys:
                # A folder can be opened, but not read.
                streams['stdin'] = os.open(folder, os.O_RDONLY)
                opened.callback(os.close, streams['stdin'])
            yield folder, streams

    def differences(self, got):
        """Yields in what the program's end differs from the one of the case."""
        if 'stdout' not in self.keys:
            yield from self.differences_of('output', got.output)
        if 'stderr' not in self.keys:
            yield from self.differences_of('errors', got.errors)
        for words, wanted in self.keys.get('counts', {}).items():
            yield from self.miscounted(words, wanted, got.output)
        if got.output.startswith(b'<svg'):
            yield from wrong_picture(got.output)
        wanted = self.keys.get('status', 0)
        if got.status != wanted:
            yield f'status {got.status} in place of {wanted}'

    def differences_of(self, stream, text):
        """Yields in what one stream differs."""
        partial = [key for key in self.keys if key.startswith(f'{stream}-') or (stream, key) == ('output', 'counts')]
        if stream in self.keys or not partial:
            yield from first_difference(stream, text, self.text(self.keys.get(stream, '')))
        rows = [('start', 'begin with', text.startswith), ('parts', 'have', text.__contains__),
                ('end', 'end with', text.endswith)]
        for key, verb, holds in rows:
            missing = [shown(it) for it in self.texts_of(f'{stream}-{key}') if not holds(it)]
            yield from (f"{stream} {shown(text)} doesn't {verb} {it}" for it in missing)

    def miscounted(self, words, wanted, output):
        """Yields what is wrong with the number in the first line that has these words before it."""
        match wanted:
            case [int(least), int(most)]:
                pass
            case int(least):
                most = least
            case _:
                raise Trouble(f'{wanted!r} is no number')
        found = re.search(rf'^{re.escape(words)} (\d+)$'.encode(), output, re.MULTILINE)
        if not found:
            yield f'no line has {words} and a number'
        elif not least <= int(found.group(1)) <= most:
            yield f'{found.group(0).decode()} in place of {wanted}'


def wrong_picture(text):
    """Yields why a picture is no well-formed XML, if it is none."""
    try:
        xml.etree.ElementTree.fromstring(text)
    except xml.etree.ElementTree.ParseError as error:
        yield f'the picture is no XML: {error}'


def first_difference(stream, got, wanted):
    """Yields the first line in which a text differs from another, if it does."""
    if got == wanted:
        return
    lines, others = got.splitlines(keepends=True), wanted.splitlines(keepends=True)
    at = next((n for n, (line, other) in enumerate(zip(lines, others)) if line != other), min(len(lines), len(others)))
    line, other = (shown(it[at]) if at < len(it) else 'its end' for it in (lines, others))
    yield f'{stream}, line {at + 1}: {line} in place of {other}'


def rows_of(path):
    """The rows of a file of cases."""
    try:
        tables = tomllib.loads(path.read_text(encoding='utf-8'))
    except (OSError, ValueError) as error:
        raise Trouble(f'{path.name}: {error}') from error
    texts = tables.pop('texts', {})
    for name, table in tables.items():
        yield from rows_of_case(f'{path.stem}: {name}', table, texts)


def rows_of_case(name, table, texts):
    """The rows of a table, numbered if there are several."""
    rows = table.pop('rows', [{}]) if isinstance(table, dict) else []
    if not rows or not all(isinstance(row, dict) for row in rows):
        raise Trouble(f'{name}: there is no row, or one is no table')
    for number, row in enumerate(rows, 1):
        yield Case(f'{name} {number}' if len(rows) > 1 else name, {**table, **row}, texts)


def read_cases():
    """All rows, in the order of their files' names."""
    cases = [case for path in sorted(CASES.glob('*.toml')) for case in rows_of(path)]
    if not cases:
        raise Trouble(f'no case stands in {CASES.relative_to(TOP)}')
    return cases


def test_cases(program, results, cases):
    """Runs the program on each row."""
    for case in cases:
        results.test(f'{program.name}: {case.name}', case.wrong, program)

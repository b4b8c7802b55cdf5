"""A program under test, the libraries that are preloaded into it, and what came of the tests."""
import os
import pathlib
import subprocess
from typing import NamedTuple

HERE = pathlib.Path(__file__).resolve().parent
TOP = HERE.parent

# A program that runs for longer fails its test.
SECONDS = 600

# What a test says of bytes at most.
SHOWN = 160


class Trouble(Exception):
    """Why a test could not be made, in words."""


class Ended(NamedTuple):
    """What a program wrote, and its exit status."""

    output: bytes
    errors: bytes
    status: int

    def __str__(self):
        return f'status {self.status}, output {shown(self.output)}, errors {shown(self.errors)}'


def shown(text):
    """These bytes as Python writes them, cut if they are many."""
    return repr(text) if len(text) <= SHOWN else f'{text[:SHOWN]!r} and {len(text) - SHOWN} bytes more'


class Libraries:
    """The libraries that are preloaded into a program, compiled into a folder."""

    NAMES = ('refuse_memory', 'refuse_thread', 'set_clock', 'slow_io', 'slow_threads')

    def __init__(self, folder):
        self.folder = folder
        for name in self.NAMES:
            compile_library(name, folder)

    def settings(self, name):
        """The variables that preload a library: by its name, since a list of paths is cut at spaces."""
        return {'LD_PRELOAD': f'{name}.so', 'LD_LIBRARY_PATH': str(self.folder)}


def compile_library(name, folder):
    """Compiles a library of outside/ into a folder."""
    compile_source(name, folder / f'{name}.so', '-shared', '-fPIC')


def compile_source(name, made, *options):
    """Compiles a source of outside/."""
    compiler = os.environ.get('CC', 'cc')
    flags = ['-std=c99', '-O1', '-Wall', '-Wextra', '-Werror', *options]
    try:
        ended = subprocess.run([compiler, *flags, '-o', made, HERE / f'{name}.c', '-ldl'], capture_output=True)
    except OSError as error:
        raise Trouble(f'there is no C compiler: {compiler}: {error.strerror}') from error
    if ended.returncode != 0:
        raise Trouble(f'{compiler} does not compile outside/{name}.c: {ended.stderr.decode(errors="replace").strip()}')


class Program:
    """The program of a path, which runs in a folder of its own."""

    def __init__(self, path, folder, libraries):
        self.path, self.folder, self.libraries = path, folder, libraries
        self.name = path.name

    def run(self, words, data=b'', library=None, folder=None, streams=None, **settings):
        """How the program ended with these words and this input, and what the preloaded library reports.

        `streams` has others in the place of the input or of what is captured, and `settings` are variables of the
        environment."""
        preloaded = self.libraries.settings(library) if library else {}
        given, report = os.pipe()
        try:
            how = {'stdout': subprocess.PIPE, 'stderr': subprocess.PIPE, **(streams or {})}
            how.update({} if 'stdin' in how else {'input': data})
            ended = subprocess.run([self.path, *words], cwd=folder or self.folder, timeout=SECONDS, pass_fds=(report,),
                                   env={**os.environ, **preloaded, **settings, 'REPORT': str(report)}, **how)
        except OSError as error:
            raise Trouble(f'{self.path} does not run: {error.strerror}') from error
        except subprocess.TimeoutExpired as error:
            raise Trouble(f'{command_line(words)}: it ran for over {SECONDS} seconds') from error
        finally:
            os.close(report)
            with os.fdopen(given, 'rb') as reader:
                reported = reader.read()
        return Ended(ended.stdout or b'', ended.stderr or b'', ended.returncode), reported


def command_line(words):
    """These words as they are typed."""
    return ' '.join(['csqsim', *(word if isinstance(word, str) else repr(word) for word in words)])


class Results:
    """Counts the tests, and prints a line for each."""

    def __init__(self):
        self.passed = self.failed = 0

    def say(self, *words):
        """Prints a line."""
        print(*words, flush=True)

    def test(self, name, find, *arguments):
        """Makes a test. It passes if `find` yields nothing; else the first thing that it yields says what is wrong."""
        try:
            wrong = next(iter(find(*arguments)), None)
        except Trouble as trouble:
            wrong = trouble
        if wrong is None:
            self.passed += 1
            self.say('passed', name)
        else:
            self.fail(f'{name}: {wrong}')
        return wrong is None

    def fail(self, what):
        """Counts a failure."""
        self.failed += 1
        self.say('FAILED', what)


class Passed(Results):
    """Keeps the names of the tests that pass, and prints nothing."""

    def __init__(self):
        super().__init__()
        self.names = []

    def say(self, what, name):
        """Keeps the name of a test that has passed."""
        if what == 'passed':
            self.names.append(name)

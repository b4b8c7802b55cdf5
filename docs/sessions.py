"""A document whose commands are one session: they are run one after the other by one shell, as its reader would run them, and
each prints what the document shows below it. A line `..` stands for lines that are left out. What is shown of no command has
to end with status 0. Commands of csqsim are compared by answers.py."""
import contextlib
import os
import pathlib
import re
import shutil
import subprocess
import tempfile

import answers

TOOLS = 'bash', 'make', 'cc', 'cargo'
CLONE = 'keuvatsi'  # in the home of the session
# A block of code that the reader saves: the line above it ends with a colon, and names the file.
SAVED = re.compile(r'^[^\n]*`~/([\w./-]+)`[^`\n]*:\n\n```\w+\n(.*?)^```$', re.M | re.S)
LONGEST = 600  # seconds


def missing_tool():
    return next((it for it in TOOLS if not shutil.which(it)), None)


def commands_of(text):
    return [it for it in answers.blocks(text) if not answers.SHOWN.match('$ ' + it[1])]


def make_home(home, top, text):
    """The clone, and the files that the reader saves."""
    (home / CLONE).symlink_to(top)
    for name, code in SAVED.findall(text):
        (home / name).parent.mkdir(parents=True, exist_ok=True)
        (home / name).write_text(code)


def environment(home):
    """That of the caller with another home. What rustup and cargo have stays where it is."""
    before = os.environ.get('HOME', '/')
    return {'RUSTUP_HOME': f'{before}/.rustup', 'CARGO_HOME': f'{before}/.cargo', **os.environ, 'HOME': str(home),
            'CARGO_NET_OFFLINE': 'true', 'LC_ALL': 'C.UTF-8'}


def run(top, text):
    """What each command printed, and its status; nothing of those that weren't reached."""
    with tempfile.TemporaryDirectory(prefix='session-') as folder:
        home, said = pathlib.Path(folder, 'home'), pathlib.Path(folder, 'said')
        home.mkdir()
        said.mkdir()
        make_home(home, top, text)
        lines = [f'{{ {command}\n}} >{said}/{number} 2>&1 </dev/null; echo $? >{said}/{number}.status\n'
                 for number, command, _ in commands_of(text)]
        with contextlib.suppress(subprocess.TimeoutExpired):
            subprocess.run(['bash', '-c', f'cd ~/{CLONE}\n' + ''.join(lines)], env=environment(home), timeout=LONGEST)
        return {int(it.stem): ((said / it.stem).read_text(errors='replace'), int(it.read_text()))
                for it in said.glob('*.status')}


def checks(top, document, text):
    """Whether each command prints what is shown of it: with the document, the line, and what is wrong."""
    ran = run(top, text)
    for number, command, shown in commands_of(text):
        printed, status = ran.get(number, ('', None))
        if shown:
            right = answers.shows(shown, printed)
            at = number + 1 + (0 if right else answers.first_other(shown, [printed]))
            yield right, document, at, f'{command} prints otherwise: {printed[-300:]}'
        else:
            yield status == 0, document, number, f'{command} ends with status {status}: {printed[-300:]}'
    yield ran, document, 1, 'shows no command'

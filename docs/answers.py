"""What csqsim answers to each command that a document shows after a `$`, beside what the document shows of it. Standard
error comes after standard output, where it is shown. A line `..` stands for lines that are left out."""
import os
import re
import subprocess

# A command of csqsim, wherever a document shows one; and those that can be run here: on a file of the repository or a text
# that printf writes, and on all files of a folder.
SHOWN = re.compile(r'^ *\$ .*\bcsqsim\b')
ALONE = re.compile(r"(printf '[^']*' \| )?csqsim [\w /.-]*")
CASES = re.compile(r'\(cd crates/csqsim && rt try --cases \.\./\.\./(\w+) -- (\w+)\)')


def blocks(text):
    """Each command after a `$` in an indented block: the number of its line, itself, and the lines that it shows."""
    number, command, shown = 0, None, []
    for at, line in enumerate([*text.splitlines(), ''], 1):
        begins = line.startswith('    $ ')
        if command is not None and (begins or not line.startswith('    ')):
            yield number, command, shown
            command = None
        if begins:
            number, command, shown = at, line[6:], []
        elif command is not None:
            shown.append(line[4:])


def shows(shown, answer):
    """Whether these lines show this answer."""
    pattern = ''.join('(?:.*\n)*?' if line == '..' else re.escape(line) + '\n' for line in shown)
    return re.fullmatch(pattern, answer) is not None


def first_other(shown, answers):
    """How many of these lines agree with one of the answers, before one that doesn't."""
    return max((at for at in range(len(shown) + 1) if any(shows([*shown[:at], '..'], it) for it in answers)), default=0)


class Csqsim:
    """A built csqsim, which runs at the repository's top."""

    def __init__(self, top, program):
        self.top = top
        self.environment = dict(os.environ, CSQSIM=program)

    def run(self, command):
        ran = subprocess.run(['bash', '-c', 'csqsim() { "$CSQSIM" "$@"; }; ' + command], cwd=self.top, env=self.environment,
                             stdin=subprocess.DEVNULL, stdout=subprocess.PIPE, stderr=subprocess.PIPE, text=True,
                             errors='replace')
        return ran.stdout, ran.stderr

    def answers(self, command):
        """What may be shown of a command: without its standard error, and with it. None: it can't be run here."""
        cases = CASES.fullmatch(command)
        if cases:
            folder = os.path.join(self.top, cases[1])
            names = sorted(it for it in os.listdir(folder) if it.endswith('.txt'))
            return [''.join('== %s\n%s' % (it, self.run('csqsim %s %s/%s' % (cases[2], cases[1], it))[0]) for it in names)]
        if ALONE.fullmatch(command):
            output, errors = self.run(command)
            return [output, output + errors]
        return None


def checks(csqsim, document, text):
    """Whether each command of csqsim in a document has the answer that it shows: with the line's number, and what is wrong.
    One that isn't run has not."""
    compared = set()
    for number, command, shown in blocks(text):
        answers = csqsim.answers(command) if SHOWN.match('$ ' + command) else None
        if answers is not None:
            compared.add(number)
            right = any(shows(shown, it) for it in answers)
            at = number + 1 + (0 if right else first_other(shown, answers))
            yield right, document, at, 'csqsim answers otherwise'
    for number, line in enumerate(text.splitlines(), 1):
        if SHOWN.match(line):
            yield number in compared, document, number, 'the answer of this command is not compared'

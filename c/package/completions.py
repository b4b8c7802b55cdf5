"""The completions of csqsim for bash and zsh, made of its helps, which its command line has proved."""
import re

OPTION = re.compile(r' +(?:-\w, )?(--[\w-]+)(?: <(\w+)>)?  +(.*)')


class Command:
    """A command: what its help says of it, of its options, and whether it reads a file."""

    def __init__(self, name, text):
        self.name, self.about = name, text[0]
        self.options = [found.groups() for found in map(OPTION.fullmatch, text) if found]
        self.reads = any(line.strip().startswith('[FILE]') for line in text)

    def names(self):
        return ' '.join(option for option, _, _ in self.options)


def bash(helps):
    commands = [Command(*it) for it in helps.items()]
    names = ' '.join(command.name for command in commands)
    values = '|'.join(sorted({option for command in commands for option, value, _ in command.options if value}))
    cases = [f'        {command.name}) options="{command.names()}"{" reads=1" if command.reads else ""} ;;'
             for command in commands]
    return '\n'.join(['# The completions of csqsim for bash, made of its help.', '_csqsim() {',
                      '    local word=${COMP_WORDS[COMP_CWORD]} options= reads=', '    COMPREPLY=()',
                      '    if ((COMP_CWORD == 1)); then', f'        options="{names} help --help --version"',
                      '    elif [[ ${COMP_WORDS[COMP_CWORD-1]} =~ ^(' + values + ')$ ]]; then',
                      '        return 0 # a number', '    else', '        case ${COMP_WORDS[1]} in', *cases,
                      f'        help) options="{names}" ;;', '        esac', '    fi',
                      '    if [[ $reads && $word != -?* ]]; then', '        compopt -o filenames 2>/dev/null',
                      '        mapfile -t COMPREPLY < <(compgen -f -- "$word")', '    else',
                      '        mapfile -t COMPREPLY < <(compgen -W "$options" -- "$word")', '    fi', '}',
                      'complete -F _csqsim csqsim'])


def quoted(text):
    """Words of a description, as _arguments and _describe read them in single quotes."""
    return re.sub(r'([\[\]:\\])', r'\\\1', text).replace("'", "'\\''")


def zsh_arguments(command):
    """What _arguments is to know of a command."""
    made = [f"'{option}[{quoted(about)}]{f':{value}: ' if value else ''}'" for option, value, about in command.options]
    return ' '.join(made + (["'1:file:_files'"] if command.reads else []))


def zsh(helps):
    commands = [Command(*it) for it in helps.items()]
    described = [f"        '{command.name}:{quoted(command.about)}'" for command in commands]
    cases = [f'    {command.name}) _arguments {zsh_arguments(command)} ;;' for command in commands]
    return '\n'.join(['#compdef csqsim', '# The completions of csqsim for zsh, made of its help.', 'local -a commands',
                      'commands=(', *described, "        'help:Prints the help of a command'", ')',
                      'if (( CURRENT == 2 )); then', '    _describe command commands', '    return', 'fi',
                      'local command=$words[2]', 'shift words', '(( CURRENT-- ))', 'case $command in', *cases,
                      '    help) _describe command commands ;;', 'esac'])

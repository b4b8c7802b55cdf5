"""What a native csqsim answers to what the page asks of its module."""
import json
import subprocess

# If the page is tried without a module, it asks at a place where nothing is: the browser hands the request over.
ASK = '''const [NO_MEMORY, STOPPED] = [1, 2];
function ask(name, numbers, input) {
  const asked = new XMLHttpRequest();
  asked.open('POST', `https://csqsim.invalid/${name}?${numbers}`, false);
  asked.send(input);
  return JSON.parse(asked.responseText);
}
'''
PLACE = 'https://csqsim.invalid/*'


# The words of csqsim for the numbers of an export, in their order; one that only is there or isn't is asked for by 1.
SIZES = ('--irps', '--passes')
WORDS = {'csq_page_schedule': ('schedule', SIZES, ('--claims', '--explain')),
         'csq_page_wrong_schedule': ('schedule', SIZES, ('--wrong',)),
         'csq_page_draw': ('draw', SIZES, ('--text',)),
         'csq_page_wrong_draw': ('draw', SIZES, ('--text', '--wrong')),
         'csq_page_script': ('script', ('--irps', '--files', '--limit'), ('--explain',))}


def words(name, numbers):
    """The words of csqsim that ask the same as this export with these numbers."""
    command, options, flags = WORDS[name]
    chosen = [*numbers[len(options):], 1]  # one that breaks the protocol is meant by the export's name
    return [command, *(it for pair in zip(options, map(str, numbers)) for it in pair),
            *(it for it, is_set in zip(flags, chosen) if is_set)]


class Csqsim:
    """A built csqsim."""

    def __init__(self, program):
        self.program = program

    def answer(self, name, numbers, text):
        """As the page has it: the status, the answer, and the diagnosis without the input's name."""
        ran = subprocess.run([self.program, *words(name, numbers)], input=text.encode(), stdout=subprocess.PIPE,
                             stderr=subprocess.PIPE)
        diagnosis = ran.stderr.decode()
        cut = '<stdin>: ' if diagnosis.startswith('<stdin>: ') else '<stdin>:'
        return {'status': ran.returncode, 'answer': ran.stdout.decode(), 'diagnosis': diagnosis.removeprefix(cut)}

    def answer_request(self, url, body):
        """The answer to a request of a page that asks by ASK."""
        name, _, numbers = url.rpartition('/')[2].partition('?')
        return json.dumps(self.answer(name, [int(it) for it in numbers.split(',')], body)).encode()

"""The numbers that the documents state of the repository. Each is counted here, from the sources or by csqsim, or it is
*measured*: then it stands below a line that says so, with the date."""
import functools
import itertools
import os
import pathlib
import re
import subprocess

WORDS = 'no one two three four five six seven eight nine ten eleven twelve thirteen fourteen fifteen sixteen seventeen \
eighteen nineteen twenty'.split()
# The lines below which numbers are measured, with the date.
MEASURED = {
    'docs/IOCSQ.md': r'^Measured on \d{4}-\d\d-\d\d:',
    'docs/FIGURES.md': r'^Measured on \d{4}-\d\d-\d\d by `bench/figures` on ',
    'CONTRIBUTING.md': r'^The last run, of \d{4}-\d\d-\d\d ',
    'docs/PROOFS.md': r'^Measured on \d{4}-\d\d-\d\d: the prover prints',
}
MOST_ORDERS = 1000  # of a row of PROTOCOL's table that is counted outside of the gate


class Repository:
    """Its files, by their names from the top."""

    def __init__(self, top, files):
        self.top = pathlib.Path(top)
        self.files = files

    def text(self, name):
        return (self.top / name).read_text(encoding='utf-8', errors='replace')

    def path(self, name):
        return str(self.top / name)

    def count(self, pattern):
        """How many files have such a name."""
        return sum(re.fullmatch(pattern, name) is not None for name in self.files)

    @functools.cache
    def lines(self, pattern):
        """How many lines that aren't blank the files of such a name have."""
        return sum(bool(line.strip()) for name in self.files if re.fullmatch(pattern, name)
                   for line in self.text(name).splitlines())


def faults(repository, name):
    """The faults of a table of wrong drivers: each a driver and the place where it is wrong."""
    return {tuple(line.split()[:2]) for line in repository.text(f'iocsq/tests/{name}.txt').splitlines()}


def right_drivers(repository):
    found = [re.fullmatch(r'iocsq/((?:drivers|examples|hand|kmdf|usual)/\w+)\.c', name) for name in repository.files]
    return sorted(it[1] for it in found if it)


def figure(repository, call, threads):
    """The nanoseconds of a call in FIGURES' own table."""
    row = re.search(rf'^\| {call} \| {threads} \| (\d+) \|', repository.text('docs/FIGURES.md'), re.M)
    return row[1] if row else ''


def schedules(repository, folder):
    return WORDS[repository.count(folder + r'/[\w-]+\.txt')]


def of_the_proofs(repository):
    crates = re.findall(r'^[^#\s]', repository.text('crates.txt'), re.M)
    edits, more = (str(repository.count(it)) for it in (r'crates/\w+/edits/\w+\.edit', r'crates/\w+/edits/more/\w+\.edit'))
    axioms = re.search(r'`axioms=(\d+)` for `csqsim`', repository.text('docs/PROOFS.md'))[1]
    exports = sum(repository.text(f'crates/csq_c/src/{it}.rt').count('extern "C" fn') for it in ('locked', 'unlocked'))
    yield 'README.md', r'proves all (\d+) crates', str(len(crates))
    yield 'README.md', r'refuse (\d+) faulty variants', edits
    yield 'docs/FAQ.md', r'prover refuses (\d+) faulty variants', edits
    yield 'docs/PAPER.md', r'prover refuses (\d+) faulty variants', edits
    yield 'docs/PROOFS.md', r'prover refuses it: there are (\d+)', edits
    yield 'docs/PROOFS.md', r'There are (\d+) more, in `edits/more`', more
    yield 'README.md', r'Each of the (\w+) exported C calls by a pass', WORDS[exports]
    yield 'crates/csq_c/README.md', r'the (\w+) exports that are calls by a pass', WORDS[exports]
    yield 'docs/FAQ.md', r'each of the (\w+) exported calls by a pass', WORDS[exports]
    yield 'docs/PAPER.md', r'Each of the (\w+) exported C calls by a pass', WORDS[exports]
    yield 'docs/FAQ.md', r'the C library by (\d+) assumed functions', axioms
    yield 'docs/PAPER.md', r'(\d+) C functions that `csqsim` reaches', axioms
    yield 'README.md', r'of the (\d+) C functions that `csqsim` reaches', axioms
    yield 'README.md', r'reaches \(`axioms=(\d+)`\)', axioms


def of_the_programs(repository):
    packages = re.findall(r'^([\w+-]+):', repository.text('.ci/packages'), re.M)
    sizes = re.search(r'fn machine_command.*?default: Some\("(\d+)"\).*?irps_option\("(\d+)"\)',
                      repository.text('crates/csq_program/src/command.rt'), re.S)
    insert, reuse = 'insert, removal, completion', 'insert, removal, completion, reuse'
    yield 'CONTRIBUTING.md', r'apt-get install (.*)', ' '.join(packages)
    yield 'docs/CSQSIM.md', r'set the sizes \((\d+) and \d+ unless given\)', sizes[2]
    yield 'docs/CSQSIM.md', r'set the sizes \(\d+ and (\d+) unless given\)', sizes[1]
    yield 'README.md', r'a removal and a completion take (\d+) ns', figure(repository, insert, 1)
    yield 'docs/FIGURES.md', r'a removal and a completion take (\d+) ns', figure(repository, insert, 1)
    yield 'docs/FIGURES.md', r'With a reuse it is (\d+) ns', figure(repository, reuse, 1)
    yield 'docs/FIGURES.md', r'and (\d+) ns with eight threads', figure(repository, reuse, 8)


def of_the_drivers(repository):
    stormed, bounded = faults(repository, 'wrong'), faults(repository, 'bounded')
    drivers = right_drivers(repository)
    yield 'README.md', r'and (\d+) faults, each of which is found', str(len(stormed | bounded))
    yield 'docs/IOCSQ.md', r'(\d+) faults in all', str(len(stormed | bounded))
    yield 'docs/IOCSQ.md', r'except (\w+) that take every schedule', WORDS[len(bounded - stormed)]
    yield 'docs/IOCSQ.md', r'in the (\w+) scenarios', schedules(repository, 'iocsq/scenarios')
    yield 'docs/TUTORIAL.md', r'all (\w+) scenarios', schedules(repository, 'iocsq/scenarios')
    quiet = repository.count(r'iocsq/(drivers|usual|examples|hand|kmdf|unusual|races)/\w+\.c')
    for name, pattern in ('docs/FAQ.md', r'were planted: (\d+)'), ('docs/PAPER.md', r'and (\d+) planted faults'):
        yield name, pattern, str(len(stormed | bounded))
    yield 'docs/FAQ.md', r'seeds except (\w+) that take every schedule', WORDS[len(bounded - stormed)]
    yield 'docs/FAQ.md', r'run (\d+) right drivers', str(quiet)
    yield 'docs/PAPER.md', r'(\d+) right drivers', str(quiet)
    for folder in ('drivers', 'usual', 'examples', 'hand', 'kmdf'):
        count = sum(it.startswith(f'{folder}/') for it in drivers)
        yield 'docs/IOCSQ.md', rf'`iocsq/{folder}` (?:has )?(\w+)', WORDS[count]


def of_the_costs(repository):
    """What FAQ takes from FIGURES and DECISIONS."""
    name, figures = 'docs/FAQ.md', repository.text('docs/FIGURES.md')
    jobs = dict(re.findall(r'^\| (.*), over the proved library, .*? \| (.*) \|$', figures, re.M))
    rust, ring = jobs['Rust'].split(' | '), jobs['C, one in a call'].split(' | ')
    yield name, r'took (\d+) ns in one thread', re.match(r'\d+', rust[0])[0]
    for cell, pattern in ((rust[0], r'proved library, ([\d.]+) times'), (ring[0], r'in C it was ([\d.]+) times'),
                          (rust[4], r'the factors were ([\d.]+)'), (ring[4], r'the factors were [\d.]+ and ([\d.]+)\.')):
        yield name, pattern, re.match(r'\d+, ([\d.]+) ', cell)[1]
    taken = re.search(r'takes (\d+) instructions over it, and (\d+) over', repository.text('docs/DECISIONS.md'))
    yield name, r'takes (\d+) instructions over it', taken[1]
    yield name, r'over it and (\d+) over a plain', taken[2]
    refusing = re.search(r'^\| a plain queue that refuses the same.*', figures, re.M)[0]
    ratios = sorted(re.findall(r'\d\.\d\d', refusing))
    yield name, r'took ([\d.]+) to [\d.]+ times as long', ratios[0]
    yield name, r'to ([\d.]+) times as long', ratios[-1]


def of_the_tests(repository):
    """What iocsq/README says of iocsq/run-tests."""
    name, tests = 'iocsq/README.md', repository.text('iocsq/run-tests')
    for word, pattern in (('disagrees', r'a report, status (\d+)'), ('nothing', r'`nothing` \((\d+)'),
                          ('policy', r'`policy` \((\d+)'), ('crash', r'`crash` \((\d+)')):
        yield name, pattern, re.search(rf'\b{word}=(\d+)', tests)[1]
    yield name, r'one of (\d+) seeds', re.search(r'seed <= (\d+);', tests)[1]
    yield name, r'with up to (\d+) seeds', re.search(r'^    seeds=(\d+)$', tests, re.M)[1]


def of_the_paper(repository):
    """What PAPER and CITATION.cff take from other documents, and the schedules."""
    protocol = repository.text('docs/PROTOCOL.md')
    orders = re.search(r'Of the (\d+) orders with a wrong call (\d+) do harm', protocol)
    once = re.search(r'(\w+) of the mistakes show in one order alone', protocol)
    last_life = re.search(r'^last_life = 2 \^ (\d+) - 1$', repository.text('crates/irp_core/specs/Lives.antt'), re.M)
    release = re.search(r'^## (\d\S*) \((.*)\)$', repository.text('CHANGELOG.md'), re.M)
    yield 'docs/PAPER.md', r'a removal and a completion take (\d+) ns', figure(repository, 'insert, removal, completion', 1)
    yield 'docs/PAPER.md', r'with (\w+) right schedules', schedules(repository, 'schedules')
    yield 'docs/PAPER.md', r'schedules and (\w+) wrong ones', schedules(repository, 'schedules/wrong')
    yield 'docs/PAPER.md', r'(\d+ of \d+) orders with a wrong call', f'{orders[2]} of {orders[1]}'
    yield 'docs/PAPER.md', r'(\w+) of the mistakes in one order alone', once[1].lower()
    yield 'docs/FAQ.md', r'has been used 2\^(\d+) times', last_life[1]
    yield 'CITATION.cff', r'\nversion: (.*)', release[1]
    yield 'CITATION.cff', r'\ndate-released: (.*)', release[2]


def line_of(text, place):
    return text.count('\n', 0, place) + 1


def checks(repository):
    """Whether each number is as it was counted: with its document, the line, and what is wrong."""
    for rows in (of_the_proofs, of_the_programs, of_the_drivers, of_the_costs, of_the_tests, of_the_paper):
        for name, pattern, wanted in rows(repository):
            text = repository.text(name)
            found = re.search(pattern, text)
            yield found and found[1] == wanted, repository.path(name), line_of(text, found.start(1) if found else 0), \
                f"doesn't say {pattern} as the repository does: {wanted}"
    for name, pattern in MEASURED.items():
        yield re.search(pattern, repository.text(name), re.M), repository.path(name), 1, f'has no line {pattern}'
    yield from checks_of_figures(repository)
    yield from checks_of_schedules(repository)
    yield from checks_of_lines(repository, 'docs/PROOFS.md')
    yield from checks_of_lines(repository, 'docs/PAPER.md')
    yield from checks_of_races(repository)
    yield from checks_of_budgets(repository)


def checks_of_figures(repository):
    """FIGURES' tables are those of the run that docs/figures/run.json keeps, line by line."""
    text, name = repository.text('docs/FIGURES.md'), repository.path('docs/FIGURES.md')
    run = subprocess.run([repository.path('bench/figures'), '--print'], stdout=subprocess.PIPE, text=True).stdout.splitlines()
    before = line_of(text, text.find(run[0]) if run else 0)
    for number, (line, kept) in enumerate(zip(text.splitlines()[before - 1:], run), before):
        yield line == kept, name, number, f'is not of the run that is kept: {kept}'
    yield run, name, 1, 'is not compared, since bench/figures --print prints nothing'


def checks_of_schedules(repository):
    """IOCSQ's table has each right driver once, in order. Its numbers are measured, and iocsq/run-tests counts the small
    ones again."""
    text, drivers = repository.text('docs/IOCSQ.md'), right_drivers(repository)
    rows = list(re.finditer(r'^\| (\w+/\w+) \| [1-3] \| \d+ \| \d+ \|$', text, re.M))
    for row, driver in zip(rows, drivers):
        yield row[1] == driver, repository.path('docs/IOCSQ.md'), line_of(text, row.start()), f'is no row of {driver}'
    yield len(rows) == len(drivers), repository.path('docs/IOCSQ.md'), 1, \
        f'has {len(rows)} rows of drivers in its table, and there are {len(drivers)}'


def checks_of_lines(repository, document):
    """The lines of Rattle, of definitions and of proofs that it names are those of the repository, to a twentieth."""
    text, name = repository.text(document), repository.path(document)
    parts = {r'about ([\d,]+) lines of Rattle': r'crates/.*\.rt', r'([\d,]+) of definitions': r'crates/.*/specs/.*\.antt',
             r'([\d,]+) of written proofs': r'crates/.*/proofs/.*\.antt'}
    for pattern, files in parts.items():
        found, count = re.search(pattern, text), repository.lines(files)
        said = int(found[1].replace(',', '')) if found else 0
        yield abs(said - count) * 20 <= count, name, line_of(text, found.start(1) if found else 0), \
            f'names another number of lines than the repository has: {count}'


def checks_of_races(repository):
    """TEACHING has each wrong order once, with the numbers of PROTOCOL's tables."""
    text, name = repository.text('docs/TEACHING.md'), repository.path('docs/TEACHING.md')
    protocol = repository.text('docs/PROTOCOL.md')
    rows = re.findall(r'^\| `([a-z-]+)` \| \d+ \| \d+ \| (\d+) \| (\d+) \|$', protocol, re.M)
    orders = re.search(r'^\| insert, cancel \| (\d+) \| \d+ \| (\d+) \|', protocol, re.M)
    yield f'{orders[1]} and {orders[2]}: `docs/all-interleavings insert cancel`' in text, name, 1, \
        f'doesn\'t say that an insert and a cancel have {orders[1]} orders, {orders[2]} of them completed by the cancel'
    shown = list(re.finditer(r' \| `([a-z-]+)` \| (\d+) of (\d+) \| ', text))
    for row in shown:
        yield (row[1], row[3], row[2]) in rows, name, line_of(text, row.start()), 'has other numbers of orders than PROTOCOL'
    yield len(shown) == len(rows), name, 1, f'has {len(shown)} wrong orders, and PROTOCOL has {len(rows)}'


def checks_of_budgets(repository):
    """No purpose has more lines than CONTRIBUTING allows it, and each crate has one purpose."""
    name, text = 'CONTRIBUTING.md', repository.text('CONTRIBUTING.md')
    rows = list(re.finditer(r'^\| [\w ]+ \| ([\w, ]*) ?\| ([\d,]+) \|$', text, re.M))
    for row in rows:
        crates = '|'.join(re.findall(r'\w+', row[1]))
        count = repository.lines(rf'crates/({crates})/.*\.(rt|antt)' if crates else r'.*\.md')
        yield count <= int(row[2].replace(',', '')), repository.path(name), line_of(text, row.start()), \
            f'allows fewer lines than there are: {count}'
    named = sorted(it for row in rows for it in re.findall(r'\w+', row[1]))
    crates = sorted(re.findall(r'^(\w+)', repository.text('crates.txt'), re.M))
    yield named == crates, repository.path(name), line_of(text, rows[0].start() if rows else 0), \
        f"gives another purpose than one to {', '.join(sorted({*named} ^ {*crates})) or 'a crate'}"


# ---- The orders of a few calls, in PROTOCOL's table ----
def endings(repository, csqsim, calls):
    """How the orders of some calls end: how many there are; and how many requests were completed by the insert, by each
    cancel, by a removal or a return, and how many are left in the list."""
    said = subprocess.run([repository.path('docs/all-interleavings'), *calls], env=dict(os.environ, CSQSIM=csqsim),
                          stdout=subprocess.PIPE, text=True).stdout.splitlines()
    ended = [(int(line.split()[0]), line) for line in said[1:]]

    def by(pattern):
        return sum(count for count, line in ended if re.search(pattern, line))

    cancels = [by(rf'completed \w+ by the cancel \(p{at}\)') for at, call in enumerate(calls, 1) if call == 'cancel']
    return [[sum(count for count, _ in ended)], [by(r'by the insert ')], cancels or [0],
            [by(r'by the (?:remove|return) ')], [by(r'irp 0 listed')]]


def checks_of_endings(repository, csqsim):
    """Each cell of the table is counted again; of more than MOST_ORDERS orders only in the gate. Elsewhere their cells
    have the right sum."""
    name, text = 'docs/PROTOCOL.md', repository.text('docs/PROTOCOL.md')
    rows = list(re.finditer(r'^\| ((?:(?:insert|cancel|remove|return)(?:, )?){1,4}) \|((?: [\d,+ -]+ \|){5})$', text, re.M))
    for row in rows:
        cells = [[int(it.replace(',', '').replace('-', '0')) for it in cell.split('+')] for cell in row[2].split('|')[:-1]]
        yield sum(map(sum, cells[1:])) == cells[0][0], repository.path(name), line_of(text, row.start()), \
            'has cells whose sum is another than the number of orders'
        if cells[0][0] <= MOST_ORDERS or os.environ.get('GATE'):
            counted = endings(repository, csqsim, row[1].split(', '))
            yield cells == counted, repository.path(name), line_of(text, row.start()), f'has other endings than {counted}'
    all_rows = re.findall(r'^\| insert, ', text, re.M)
    yield all_rows and len(rows) == len(all_rows), repository.path(name), 1, \
        f'has {len(all_rows)} rows of orders, and {len(rows)} of them can be read'


def checks_of_harms(repository, csqsim):
    """Each row of the table of wrong orders is as docs/harmful-orders counts it; and that agrees with csqsim."""
    name, text = 'docs/PROTOCOL.md', repository.text('docs/PROTOCOL.md')
    rows = list(re.finditer(r'^\| `([a-z-]+)` \| (\d+) \| (\d+) \| (\d+) \| (\d+) \|$', text, re.M))
    ran = subprocess.run([repository.path('docs/harmful-orders')], env=dict(os.environ, CSQSIM=csqsim),
                         stdout=subprocess.PIPE, stderr=subprocess.STDOUT, text=True)
    counted = [line.split() for line in ran.stdout.splitlines()[1:]]
    yield ran.returncode == 0, repository.path('docs/harmful-orders'), 1, ran.stdout[-500:]
    for row, wanted in itertools.zip_longest(rows, counted):
        yield row and list(row.groups()) == wanted, repository.path(name), line_of(text, row.start() if row else 0), \
            f'has other numbers of harmful orders than {wanted}'
    right, harmful = (sum(int(row[at]) for row in rows) for at in (2, 5))
    yield f'Of the {sum(int(row[4]) for row in rows)} orders with a wrong call {harmful} do harm, and none of the {right} others.' \
        in text, repository.path(name), line_of(text, rows[0].start() if rows else 0), f'sums its table otherwise than {harmful} of them'

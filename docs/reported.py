"""iocsq/README.md, compared with iocsq: its table of reports with the wrong drivers of iocsq/tests and with the sources, and
its tables of files with the files that there are."""
import importlib.machinery
import importlib.util
import re

DOCUMENT = 'iocsq/README.md'
ROW = re.compile(r'^\| (?P<report>[^|`]+) \| `(?P<source>\w+\.c)` \| (?P<driver>\w+/\w+) (?P<place>[\w./-]+) \|$', re.M)
SOURCE = re.compile(r'iocsq/((?:tests/)?\w+\.(?:c|bash))')
STRINGS = re.compile(r'(?:"(?:[^"\\\n]|\\.)*"\s*)+')
LEAST = 20  # characters of a string's own, by which it is known again in a line that isn't a report's first one


def load_reached(path):
    """The script that compares the formats of reports with those that were made, as a module."""
    loader = importlib.machinery.SourceFileLoader('reached', path)
    module = importlib.util.module_from_spec(importlib.util.spec_from_loader('reached', loader))
    loader.exec_module(module)
    return module


def wrong_drivers(repository):
    """Of each wrong driver: its row, the line of that, itself, where it is wrong, and what its report has to have. A
    sanitizer's words are its own."""
    for name, columns in ('wrong', 3), ('bounded', 4):
        name = f'iocsq/tests/{name}.txt'
        for number, line in enumerate(repository.text(name).splitlines(), 1):
            driver, place, how, *_, report = line.split(' ', columns)
            if how != 'sanitizer':
                yield repository.path(name), number, (driver, place), re.compile(report)


def has(pattern, report):
    """Whether the pattern is found in this line: a report's first one, or the one below it, which is indented."""
    return bool(pattern.search(report) or pattern.search('  ' + report))


def is_made_in(reached, source, report):
    """Whether a call of iocsq_disagree in the source makes this line, or one of its strings a part of it."""
    if any(reached.fitting(it)[0].fullmatch(report) for it in reached.formats_of(source)):
        return True
    strings = (''.join(re.findall(r'"((?:[^"\\\n]|\\.)*)"', it[0])) for it in STRINGS.finditer(source))
    fits = (reached.fitting(it.replace('\\n', '').strip()) for it in strings)
    return any(own >= LEAST and pattern.search(report) for pattern, own in fits)


def rows_of(text):
    """The table's rows, each with its line and its report, in which a number is 1 in the place of N."""
    for row in ROW.finditer(text):
        yield text.count('\n', 0, row.start()) + 1, row, re.sub(r'\b(t|p|)N\b', r'\g<1>1', row['report'])


def checks_of_rows(repository, wrong):
    """Whether each row is of a source and of a wrong driver."""
    reached, path = load_reached(repository.path('iocsq/tests/reached')), repository.path(DOCUMENT)
    for line, row, report in rows_of(repository.text(DOCUMENT)):
        yield is_made_in(reached, repository.text(f'iocsq/{row["source"]}'), report), path, line, \
            f'has a report that {row["source"]} doesn\'t make'
        driver = row['driver'], row['place']
        yield any(it == driver and has(pattern, report) for _, _, it, pattern in wrong), path, line, \
            f'names {" ".join(driver)}, which has another report in iocsq/tests'


def checks_of_drivers(repository, wrong):
    """Whether each wrong driver's report is in a row."""
    reports = [report for _, _, report in rows_of(repository.text(DOCUMENT))]
    for path, line, _, pattern in wrong:
        yield any(has(pattern, it) for it in reports), path, line, \
            f'has a report that {DOCUMENT} doesn\'t list: {pattern.pattern}'


def checks_of_files(repository):
    """Whether each source of iocsq and of its tests is named."""
    text, path = repository.text(DOCUMENT), repository.path(DOCUMENT)
    for source in (it[1] for it in map(SOURCE.fullmatch, repository.files) if it):
        yield f'`{source}`' in text, path, 1, f'doesn\'t name {source}'


def checks(repository):
    """Whether the page is as iocsq is: with the file, the line, and what is wrong."""
    wrong, text = list(wrong_drivers(repository)), repository.text(DOCUMENT)
    lines = text[text.find('| report |'):].count('\n| ')
    yield sum(1 for _ in rows_of(text)) == lines, repository.path(DOCUMENT), 1, \
        f'has {lines} rows of reports, and not all can be read'
    yield from checks_of_rows(repository, wrong)
    yield from checks_of_drivers(repository, wrong)
    yield from checks_of_files(repository)

"""What page/build accepts as a page, tried with a compiler and a linker that say and write what they are told."""
import os
import pathlib
import shutil
import subprocess
import tempfile

import assemble

GOOD = 'logic=proved functions=23 target=wasm64-unknown-unknown'
EMPTY, IMPORTING = b'\0asm\1\0\0\0', b'\0asm\1\0\0\0\1\4\1\x60\0\0\2\7\1\1e\1f\0\0'
# In the place of the kit's: it prints this, writes that to what follows -o, and ends so.
TOOL = '''#!/bin/sh
while [ "$1" ] && [ "$1" != -o ]; do shift; done
cp {0}.made "$2"
cat {0}.said
exit "$(cat {0}.status)"
'''
# What the compiler says and how it ends, the module that is linked and how the linker ends; and whether there is a page then.
CASES = [('a proved module', GOOD, 0, EMPTY, 0, True)] + [(name, *it, False) for name, *it in [
    ('axioms', GOOD + ' axioms=3', 0, EMPTY, 0), ('no proof', GOOD.replace('proved', 'not-proved'), 0, EMPTY, 0),
    ('an earlier run', GOOD + ' incremental=trusted', 0, EMPTY, 0), ('batches', GOOD + ' batches=trusted', 0, EMPTY, 0),
    ('a cache', GOOD + ' cache=trusted', 0, EMPTY, 0), ('no verdict', 'logic', 0, EMPTY, 0),
    ('a failed build', GOOD, 1, EMPTY, 0), ('a failed link', GOOD, 0, EMPTY, 1), ('an import', GOOD, 0, IMPORTING, 0)]]


def copy(top):
    """A copy of what page/build reads, with a kit of tools that are told what to do, and libraries that are empty."""
    for it in ('page', 'docs', 'schedules'):
        shutil.copytree(assemble.TOP / it, top / it)
    shutil.copy(assemble.TOP / 'crates.txt', top)
    for line in (top / 'crates.txt').read_text().splitlines():
        name = line.partition(':')[0].split()[:1]
        for library in (top / 'crates' / it / 'out' / 'rlib' / f'{it}.rlib' for it in name if it[0] != '#'):
            library.mkdir(parents=True)
            (library / 'format').touch()
    (top / 'bin').mkdir()
    for tool in ('rt', 'rattle', 'rattle-link'):
        (top / 'bin' / tool).write_text(TOOL.format(top / 'bin' / tool))
        (top / 'bin' / tool).chmod(0o755)


def build(top, said, status, module, linked):
    """Whether page/build makes a page, and says so; an earlier one is there before."""
    page = top / 'crates/csq_page/out/keuvatsi.html'
    page.write_text('an earlier one')
    for tool, told, made, ended in [('rattle', said, b'', status), ('rattle-link', '', module, linked)]:
        for part, content in [('said', told.encode()), ('made', made), ('status', str(ended).encode())]:
            (top / 'bin' / f'{tool}.{part}').write_bytes(content)
    path = f'{top / "bin"}:{os.environ["PATH"]}'
    ran = subprocess.run([top / 'page/build'], env={**os.environ, 'PATH': path}, stdout=subprocess.DEVNULL,
                         stderr=subprocess.DEVNULL)
    return ran.returncode == 0, page.is_file()


def test_build(_, results):
    with tempfile.TemporaryDirectory() as folder:
        top = pathlib.Path(folder)
        copy(top)
        for name, *told, is_page in CASES:
            results.expect(f'page/build makes {"a" if is_page else "no"} page: {name}', build(top, *told), (is_page, is_page))
        (top / 'crates/irp_core/out/rlib/irp_core.rlib/format').unlink()
        results.expect('page/build needs each library below', build(top, GOOD, 0, EMPTY, 0)[0], False)

#!/usr/bin/env python3
"""Plants bugs where no proof looks, one at a time, and says which test sees each.

    tests/plants.py SEED COUNT [KIND..]

Proofs see what they are of. What lies beside them is only tested: what moves blocks and messages for an emulator, the crate for
Rust, the inline calls of the header, the scripts, and the pages. Tests are as strict as the bugs that they see, so this draws
some by a seed: a kind, a file of it, a line, and a change by rules. A condition is negated, a constant is one more, a statement
is left out, two operands change places, < becomes <=, or a name becomes another one of its kind. Each is made in a copy of the
tree, and the parts of ./check that are to see it run there, until a test fails that passes without it.

Of the crates that few others stand on it draws too, and there rt check is to refuse: as many changes as there are functions
with one, of which each counts that a goal of its function is open.

It prints a row of a table for each: where, what, and what sees it. What doesn't compile, or gives the same program, is drawn
again, and has a row that says so. What nothing sees is looked at by who runs this: either it is no bug, or a test is missing.
It takes hours, so ./check doesn't run it. Where a crate is proved, its library comes with the copy.
"""

import glob
import os
import random
import re
import shutil
import subprocess
import sys
import tempfile

TOP = os.path.dirname(os.path.dirname(os.path.realpath(__file__)))
PROGRAM = 'out/mscpq-of-c'  # in a copy: the program as C, for the parts that want one

# Of each kind: its files, how they are read, what compiles them, and the parts that are to see a change.
KINDS = {
    'port': (['examples/port.c'], 'c', ['tests/library', 'tests/simh']),
    'simh': (['examples/simh/*.[ch]', 'examples/drives.h'], 'c', ['tests/simh', f'tests/manual {PROGRAM}']),
    'rust': (['bindings/rust/src/*.rs'], 'rust', ['tests/rust']),
    'header': (['include/mscp.h'], 'c', ['tests/library', 'tests/kept', 'tests/rust', 'tests/pages', f'tests/manual {PROGRAM}']),
    'shell': (['building.bash', 'kit.bash', 'install', 'mscpq', 'mscpjudge', 'check', 'tests/part', 'tests/parts'], 'shell',
              ['tests/launcher', 'tests/install', 'tests/gate', 'tests/page']),
    'pages': ([*(f'docs/{it}.md' for it in ('C', 'FORMATS', 'HOST', 'JUDGE', 'PORT', 'SAVED', 'TUNING', 'USING')), 'docs/*.[13]',
               'include/mscp.h'], 'page',
              ['tests/pages', f'tests/manual {PROGRAM}', 'tests/using', f'tests/program {PROGRAM}', 'tests/library']),
    'mscp_host': (['crates/mscp_host/src/*.rt'], 'rattle', []),
    'mscp_judge': (['crates/mscp_judge/src/*.rt'], 'rattle', []),
    'mscp_control': (['crates/mscp_control/src/*.rt'], 'rattle', []),
    'mscp_sim': (['crates/mscp_sim/src/*.rt'], 'rattle', []),
}


# ---- the changes of a line

def other_names(line, text):
    """A name in capitals, or a variant behind ::, becomes one of the others with which it shares its head."""
    for found in re.finditer(r'\b[A-Z]+_[A-Z_0-9]+\b|\b(\w+)::[A-Z]\w*\b', line):
        head = re.match(r'\w+::|[A-Z]+_', found[0])[0]
        others = sorted(set(re.findall(rf'\b{re.escape(head)}[A-Z]\w*', text)) - {found[0]})
        for it in others[:40]:
            yield line[:found.start()] + it + line[found.end():]


def numbers(line):
    """A number is one more."""
    for found in re.finditer(r'(?<![\w.])(0x[0-9A-Fa-f]+|\d+)(?=u\b|ull\b|[^\w.]|$)', line):
        text = found[0]
        more = f'0x{int(text, 16) + 1:0{len(text) - 2}X}' if text.startswith('0x') else f'{int(text) + 1:0{len(text)}d}'
        yield line[:found.start()] + more + line[found.end():]


def comparisons(line):
    """A bound is one further, or a condition is the other one."""
    pairs = {'<': '<=', '<=': '<', '>': '>=', '>=': '>', '==': '!=', '!=': '==', '&&': '||', '||': '&&'}
    for found in re.finditer(r'(?<= )(<=|>=|==|!=|&&|\|\||<|>)(?= )', line):
        yield line[:found.start()] + pairs[found[0]] + line[found.end():]


def negations(line):
    """The condition of an if or a while, whole on its line."""
    found = re.search(r'\b(if|while) \((.+)\)( \{)?$', line)
    if found:
        yield f'{line[:found.start()]}{found[1]} (!({found[2]})){found[3] or ""}'
    found = re.search(r'\bif (?!let\b)(.+) \{$', line)
    if found and not found[1].startswith('('):
        yield f'{line[:found.start()]}if !({found[1]}) {{'


def swaps(line):
    """Two operands, or two words between brackets that follow each other."""
    for found in re.finditer(r'(?<![\w.\])])([\w.]+) ([-%/<>]|<<|>>) ([\w.]+)(?![\w.\[(])', line):
        yield f'{line[:found.start()]}{found[3]} {found[2]} {found[1]}{line[found.end():]}'
    for found in re.finditer(r'(?<=[(,] )?(?<=[( ])([\w.&*]+), ([\w.&*]+)(?=[,)])', line):
        if found[1] != found[2]:
            yield f'{line[:found.start()]}{found[2]}, {found[1]}{line[found.end():]}'


def left_out(line):
    """A statement that stands alone on its line."""
    if re.fullmatch(r' +(?!return\b|let\b|const\b|static\b|use\b|mod\b|case\b|default\b|struct\b|u?int\w+ |enum\b)[\w*&].*;', line) and \
            line.count('(') == line.count(')') and not re.match(r' +\w+ \*?\w+( =|;|\[)', line):
        yield re.match(' *', line)[0] + ';'


def of_code(lines, at, text):
    """By each rule. What a line says behind its code, or in quotes, stays."""
    code, behind = re.fullmatch(r'(.*?)(\s*(?:/\*.*|//.*)?)', lines[at]).groups()
    quoted = re.findall(r'"[^"]*"', code)
    for rule in (numbers, comparisons, negations, swaps, left_out, lambda it: other_names(it, text)):
        for changed in rule(code):
            if re.findall(r'"[^"]*"', changed) in (quoted, []):
                yield changed + behind


def of_shell(lines, at, text):
    """Tests, statuses, and whole commands."""
    line = lines[at]
    pairs = {'-eq': '-ne', '-ne': '-eq', '-gt': '-ge', '-lt': '-le', '-e': '! -e', '-n': '-z', '-z': '-n', '&&': '||', '||': '&&',
             '==': '!=', '!=': '==', '-d': '-f', '-x': '! -x'}
    for found in re.finditer(r'(?<= )(-eq|-ne|-gt|-lt|-e|-n|-z|-d|-x|&&|\|\||==|!=)(?= )', line):
        yield line[:found.start()] + pairs[found[0]] + line[found.end():]
    yield from numbers(line)
    if re.fullmatch(r' +[a-z].*[^\\{&|(]', line) and not re.match(r' +(local|fi|done|esac|else|then|do|for|if|while|case|read)\b', line) \
            and line.count('"') % 2 == 0 and line.count("'") % 2 == 0:
        yield re.match(' *', line)[0] + ':'


def of_page(lines, at, text):
    """In a table of codes or numbers, an example, or a comment on a name of the header: a number is one more, or of two rows what
    is said last is the same."""
    line = lines[at]
    is_row = re.match(r'\| (`|\d)', line)
    is_example = line.startswith('    ') and not line.strip().startswith(('"', '*'))
    said = re.search(r'= -?\w+, +(/\* .* \*/)$', line)
    if is_row or is_example or re.match(r'\.?[BI]R? ', line):
        yield from numbers(line)
    below = lines[at + 1] if at + 1 < len(lines) else ''
    if is_row and re.match(r'\| (`|\d)', below):
        mine, theirs = line.rsplit('|', 2), below.rsplit('|', 2)
        if len(mine) == len(theirs) == 3 and mine[1].count(' ') > 2 and theirs[1].count(' ') > 2:
            yield f'{mine[0]}|{theirs[1]}|'
    further = re.search(r'= -?\w+,? +(/\* .* \*/)$', below)
    if said and further:
        yield line.replace(said[1], further[1])


# ---- where a change may be

def is_code(line, way):
    text = line.strip()
    if way == 'page':
        return bool(text)
    marks = {'c': ('/*', '*', '#', '//'), 'rust': ('//', '#', 'use ', 'pub use ', 'mod '), 'shell': ('#',),
             'rattle': ('//', '#', 'use ', 'pub use ', 'ghost', 'mod ', 'requires', 'ensures', 'prove!')}[way]
    return bool(text) and not text.startswith(marks) and 'ensures' not in text and 'requires' not in text


def functions(lines):
    """Of each line of a file of Rattle the function whose body it is in, as its name and the line where it begins."""
    name, inside = None, False
    for at, line in enumerate(lines):
        found = re.match(r' *(?:pub(?:\(\w+\))? )?(?:const )?fn (\w+)', line)
        if found:
            name, inside = (found[1], at), line.endswith('{') and 'ensures' not in line
        yield name if inside and not found else None
        if not inside and name and line.strip() in ('{', ') {') or re.match(r' {0,4}\).*\{$', line):
            inside = True
        if re.match(r' {0,4}\}$', line):
            inside = False


def places(path, way):
    """The lines of a file that may change, of Rattle those of bodies alone, each with its function."""
    with open(path, encoding='utf-8') as text:
        lines = text.read().split('\n')
    owners = list(functions(lines)) if way == 'rattle' else [('', 0)] * len(lines)
    for at, line in enumerate(lines):
        if owners[at] is not None and is_code(line, way):
            yield lines, at, owners[at]


def draw(kind, by, tree):
    """A place of the kind and a change of it: path, line, old, new, and of Rattle the function and its line."""
    patterns, way, _ = KINDS[kind]
    paths = sorted(path for it in patterns for path in glob.glob(os.path.join(tree, it)) if os.path.isfile(path))
    rule = {'shell': of_shell, 'page': of_page}.get(way, of_code)
    weights = [os.path.getsize(path) for path in paths]
    while True:
        path = by.choices(paths, weights)[0]
        found = list(places(path, way))
        if not found:
            continue
        lines, at, function = by.choice(found)
        if way == 'page' and path.endswith('.h') and '/*' not in lines[at]:
            continue
        changes = [it for it in rule(lines, at, '\n'.join(lines)) if it != lines[at]]
        if changes:
            return os.path.relpath(path, tree), at, lines[at], by.choice(changes), function


# ---- a copy of the tree, and what runs in it

def copy(to):
    crates = [it.split('/')[-3] for it in glob.glob(f'{TOP}/crates/*/out/rlib')]
    if crates:
        subprocess.run(['tests/copy_proved', to, *crates], cwd=TOP, check=True)
    else:
        shutil.copytree(TOP, to, symlinks=True, ignore=shutil.ignore_patterns('.git', 'out'))
    os.makedirs(f'{to}/out', exist_ok=True)
    subprocess.run(['cc', '-O2', '-Iinclude', 'portable/mscpq.c', 'portable/mscp.c', '-o', PROGRAM], cwd=to, check=True)


def failing(part, tree, known=()):
    """The tests of a part that fail, up to the first that isn't known."""
    failed = []
    with subprocess.Popen(part.split(), cwd=tree, stdout=subprocess.PIPE, stderr=subprocess.STDOUT, stdin=subprocess.DEVNULL,
                          text=True, errors='replace', start_new_session=True) as it:
        for line in it.stdout:
            if line.rstrip().endswith(': FAILED'):
                failed.append(line.rstrip()[:-len(': FAILED')])
                if known is not None and failed[-1] not in known:
                    os.killpg(it.pid, 15)
                    break
    return failed


def compiled(path, way, tree):
    """What a compiler makes of a file, or of one that has it: None if it refuses, and '' where none can say."""
    if way == 'shell':
        return '' if subprocess.run(['bash', '-n', path], cwd=tree, capture_output=True, check=False).returncode == 0 else None
    if way == 'rust':
        words = ['cargo', 'rustc', '-q', '--offline', '--release', '--lib', '--', '--emit', 'asm=/dev/stdout', '-C', 'codegen-units=1']
        env = dict(os.environ, CARGO_TARGET_DIR=f'{tree}/out/target')
        made = subprocess.run(words, cwd=f'{tree}/bindings/rust', env=env, capture_output=True, text=True, check=False)
    elif way == 'c' and path.startswith('examples/simh'):
        return ''  # it wants the sources of SIMH: where it doesn't compile, no test begins
    elif way == 'c':
        file = {'include/mscp.h': 'include/shared.c', 'examples/drives.h': 'examples/toy.c'}.get(path, path)
        words = ['cc', '-std=gnu99', '-O1', '-w', '-Iinclude', '-S', '-o', '-', file]
        made = subprocess.run(words, cwd=tree, capture_output=True, text=True, check=False)
    else:
        return ''
    return made.stdout if made.returncode == 0 else None


def written(tree, change):
    """Makes a change, or takes it back."""
    path, at, old, new, _ = change
    with open(f'{tree}/{path}', encoding='utf-8') as text:
        lines = text.read().split('\n')
    lines[at] = new if lines[at] == old else old
    with open(f'{tree}/{path}', 'w', encoding='utf-8') as out:
        out.write('\n'.join(lines))


def row(kind, change, says):
    path, at, old, new, (function, _) = change
    place = f'{path}:{at + 1}' + (f' {function}' if function else '')
    cells = [kind, place, f'`{old.strip()}` to `{new.strip()}`', says]
    print('| ' + ' | '.join(it.replace('|', '\\|') for it in cells) + ' |', flush=True)


def tested(kind, change, tree, known):
    """What sees a change: why it counts for nothing, and the first test that fails."""
    path, way, parts = change[0], KINDS[kind][1], KINDS[kind][2]
    for part in parts:
        if part not in known:
            known[part] = failing(part, tree, None)
    before = compiled(path, way, tree)
    written(tree, change)
    try:
        after = compiled(path, way, tree)
        if after is None or after == before != '':
            return 'again: it ' + ('does not compile' if after is None else 'gives the same program'), ''
        for part in parts:
            new = [it for it in failing(part, tree, known[part]) if it not in known[part]]
            if new:
                return '', new[0]
        return '', ''
    finally:
        written(tree, change)


def try_one_by_one(kind, count, by, tree, known):
    """So many changes that count: how many are seen."""
    seen = counted = 0
    while counted < count:
        change = draw(kind, by, tree)
        why, test = tested(kind, change, tree, known)
        row(kind, change, why or test or '**nothing**')
        seen, counted = seen + bool(test), counted + (not why)
    return seen


def checked(kind, changes, tree):
    """What rt check says of a crate with all of these changes."""
    for it in changes:
        written(tree, it)
    made = subprocess.run(['rt', 'check', '--allow-holes', '--jobs', '2'], cwd=f'{tree}/crates/{kind}', capture_output=True,
                          text=True, check=False)
    for it in changes:
        written(tree, it)
    return made.stdout + made.stderr


def is_refused(kind, change, said, tree):
    """Whether a goal of the change's own function is open, or what is written of its proof is refused."""
    path, _, _, _, owner = change
    file = os.path.relpath(path, f'crates/{kind}')
    with open(f'{tree}/{path}', encoding='utf-8') as text:
        begins = sorted({it[1] for it in functions(text.read().split('\n')) if it})
    end = min([it for it in begins if it > owner[1]], default=10 ** 6)
    at = [int(it) - 1 for it in re.findall(rf'^(?:note: )?{re.escape(file)}:(\d+):\d+: it is not proved', said, re.M)]
    stem = re.sub(r'^src/|\.rt$', '', file)
    proof = rf'^\./proofs/{re.escape(stem)}/(?:\w+/)?{owner[0]}/\w+\.antt:\d+:\d+: error'
    return any(owner[1] <= it < end for it in at) or re.search(proof, said, re.M) is not None


def not_compiled(kind, changes, said):
    """The changes that rt can't read: those on a line that it names as wrong, or else in a file of such a line."""
    errors = re.findall(r'^(src/\S+?):(\d+):\d+: error', said, re.M)
    places = [os.path.relpath(it[0], f'crates/{kind}') for it in changes]
    wrong = [it for it, file in zip(changes, places) if (file, str(it[1] + 1)) in errors]
    wrong = wrong or [it for it, file in zip(changes, places) if file in {where for where, _ in errors}]
    if errors and not wrong:
        raise SystemExit(f'{kind}: no change is where rt has an error:\n{said[-2000:]}')
    return wrong


def try_together(kind, count, by, tree):
    """So many changes of a crate, each of another function, in one check: how many are refused."""
    changes = []
    while True:
        while len(changes) < count:
            it = draw(kind, by, tree)
            if all(it[4] != other[4] or it[0] != other[0] for other in changes):
                changes.append(it)
        said = checked(kind, changes, tree)
        wrong = not_compiled(kind, changes, said)
        if not wrong:
            break
        for it in wrong:
            row(kind, it, 'again: it does not compile')
            changes.remove(it)
    refused = [is_refused(kind, it, said, tree) for it in changes]
    for it, good in zip(changes, refused):
        row(kind, it, 'rt check' if good else '**nothing**')
    return sum(refused)


def main(seed, count, *kinds):
    by = random.Random(int(seed))
    drawn = [by.choice(list(kinds or KINDS)) for _ in range(int(count))]
    known, seen = {}, 0
    with tempfile.TemporaryDirectory() as room:
        tree = f'{room}/tree'
        copy(tree)
        print('| Kind | Place | Change | What sees it |\n|---|---|---|---|', flush=True)
        for kind in KINDS:
            wanted, own = drawn.count(kind), random.Random(f'{seed} {kind}')
            if wanted > 0:
                seen += try_one_by_one(kind, wanted, own, tree, known) if KINDS[kind][2] else try_together(kind, wanted, own, tree)
    print(f'{seen} of {count} are seen')


if __name__ == '__main__':
    main(*sys.argv[1:])

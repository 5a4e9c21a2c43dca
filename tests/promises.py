#!/usr/bin/env python3
"""The form of the promises.

Every `pub fn` of every crate's sources has an `ensures` and no `requires`, but for the functions that docs/PROMISES.md lists
under "## Functions with a requires", each with its reason; and every one of them is named in that file. So is every must-fail
edit, by its name, whether the gate tries it or tests/edits. An `ensures` has an equation for the answer, and one for what each
buffer lent to be written holds afterwards, but for the functions that are listed under "## Promises that allow two results": by
demands' law `one-answer` two programs that keep it then do the same. That holds
only of an equation whose left side is the whole of the one and whose right side speaks of what was given, and so neither of the
answer nor of what a buffer holds afterwards: `result ≡ result` says nothing, and `result.0 ≡ x` not all.

Usage: promises.py ROOT           check the repository at ROOT
       promises.py --self-test    check this program on a made-up source

Prints a line for each violation, and last `ok, N public functions` or `K violations` (exit status 1).
"""
import re
import sys
from pathlib import Path

HEADING = "## Functions with a requires"
LOOSE = "## Promises that allow two results"

# what is no code: comments, byte strings and strings, byte literals
SILENT = re.compile(r'//[^\n]*|/\*.*?\*/|"(?:\\.|[^"\\])*"|\bb\'(?:\\x[0-9A-Fa-f]{2}|\\.|[^\\\'\n])\'', re.S)
FUNCTION = re.compile(r'\bpub\s+(?:extern\s+"[^"]*"\s+)?fn\s+(\w+)')
IMPL = re.compile(r'\bimpl\b(?:<[^>{;]*>)?\s+(\w+)[^{;]*\{')
CLAUSE = re.compile(r'\b(requires|ensures)\b|[\[({;]')
EQUATION = re.compile(r'(result|result\.now|\w+\.new) ≡ (.*)', re.S)
AFTERWARDS = re.compile(r'(?<![\w.-])result(?![\w-])|\.(?:new|exit)\b')
LENT = re.compile(r"(\w+)\s*:\s*&(?:'\w+\s+)?mut\b")
ENTRY = re.compile(r'- `([\w:]+)`: *(\S.*)')


def blanked(source):
    """The source with each comment and literal made blank, in place, so that what is left is code."""
    return SILENT.sub(lambda m: re.sub(r'[^\n"]', ' ', m.group()), source)


def closing(code, at):
    """The place behind the bracket that closes the one at `at`."""
    depth = 0
    for i in range(at, len(code)):
        if code[i] in '([{':
            depth += 1
        elif code[i] in ')]}':
            depth -= 1
            if depth == 0:
                return i + 1
    return len(code)


def clauses(code, at):
    """The clauses of the contract that starts at `at`, up to the body: the kind of each, and its text."""
    found = []
    while True:
        m = CLAUSE.search(code, at)
        if not m or m.group() in '{;':
            return found
        if m.group(1):
            start = code.index('{', m.end())
            at = closing(code, start)
            found.append((m.group(1), code[start + 1:at - 1]))
        else:
            at = closing(code, m.start())


def facts(clause):
    """The facts that an `ensures` joins by ×, each without the brackets around it."""
    text = clause.strip()
    found, start, depth = [], 0, 0
    for i, c in enumerate(text + '×'):
        depth += (c == '(') - (c == ')')
        if c == '×' and depth == 0:
            found.append(text[start:i].strip())
            start = i + 1
    return [f[1:-1].strip() if f.startswith('(') and closing(f, 0) == len(f) else f for f in found]


def unsaid(parameters, answers, found):
    """What no equation of a contract speaks of: the answer, where there is one, and each parameter lent to be written."""
    equations = [m for kind, text in found if kind == 'ensures' for m in map(EQUATION.match, facts(text)) if m]
    told = {m.group(1) for m in equations if not AFTERWARDS.search(m.group(2))}
    wanted = [name for name in LENT.findall(parameters)]
    said = [] if not answers or told & {'result', 'result.now'} else ['its answer']
    return said + [name for name in wanted if f'{name}.new' not in told]


def functions(crate, source):
    """The public functions of a source: (crate::name or crate::Type::name, its line, the kinds of its clauses, what they leave unsaid)."""
    code = blanked(source)
    impls = [(m.group(1), m.start(), closing(code, m.end() - 1)) for m in IMPL.finditer(code)]
    found = []
    for m in FUNCTION.finditer(code):
        path = [crate] + [name for name, start, end in impls if start < m.start() < end] + [m.group(1)]
        start = code.index('(', m.end())
        end = closing(code, start)
        contract = clauses(code, end)
        left = unsaid(code[start:end], code[end:].lstrip().startswith('->'), contract)
        found.append(('::'.join(path), code.count('\n', 0, m.start()) + 1, [kind for kind, _ in contract], left))
    return found


def exceptions(page, heading):
    """What the page lists under a heading: the functions' names, and the lines that are not of the form."""
    listed, odd, inside = [], [], False
    for number, line in enumerate(page.splitlines(), 1):
        if re.match(r'##? ', line):
            inside = line.strip() == heading
        elif inside and line.startswith('- '):
            m = ENTRY.match(line)
            if m:
                listed.append(m.group(1))
            else:
                odd.append(number)
    return listed, odd


def violations(found, page):
    """A line for each violation. `found` has (file, name, line, clauses, unsaid); `page` is docs/PROMISES.md, None where it is not there."""
    listed, odd = exceptions(page or '', HEADING)
    loose, unclear = exceptions(page or '', LOOSE)
    said = [f'docs/PROMISES.md:{number}: an exception is "- `crate::function`: reason"' for number in odd + unclear]
    named = set()
    for span in re.findall(r'`([^`\n]+)`', page or ''):
        named.add(re.split(r'[(\s]', span)[0])
    requiring, unequal = set(), set()
    for file, name, line, kinds, left in found:
        if 'requires' in kinds:
            requiring.add(name)
        if left:
            unequal.add(name)
        if 'ensures' not in kinds:
            said.append(f'{file}:{line}: {name} has no ensures')
        elif name not in loose:
            said += [f'{file}:{line}: {name} has no equation for {what}' for what in left]
        if 'requires' in kinds and name not in listed:
            said.append(f'{file}:{line}: {name} has a requires and is not listed')
        if page is not None and not named & {name, name.split('::', 1)[1]}:
            said.append(f'{file}:{line}: docs/PROMISES.md does not name {name}')
    known = {name for _, name, _, _, _ in found}
    for name in listed:
        if name not in known:
            said.append(f'docs/PROMISES.md: {name} is listed, and there is no such public function')
        elif name not in requiring:
            said.append(f'docs/PROMISES.md: {name} is listed, and has no requires')
    for name in loose:
        if name not in known:
            said.append(f'docs/PROMISES.md: {name} is listed, and there is no such public function')
        elif name not in unequal:
            said.append(f'docs/PROMISES.md: {name} is listed, and has an equation for all')
    return said


def unnamed(edits, page):
    """A line for each edit, (file, name), that the page does not name."""
    return [f'{file}: docs/PROMISES.md does not name {name}' for file, name in edits if f'`{name}`' not in page]


def check(root):
    found = []
    for path in sorted(root.glob('crates/*/src/**/*.rt')):
        file = path.relative_to(root)
        source = path.read_text(encoding='utf-8')
        found += [(file, *function) for function in functions(file.parts[1], source)]
    page = root / 'docs' / 'PROMISES.md'
    if page.is_file():
        text = page.read_text(encoding='utf-8')
        edits = [(path.relative_to(root), path.stem) for path in sorted(root.glob('crates/*/must-fail*/*.edit'))]
        said = violations(found, text) + unnamed(edits, text)
    else:
        print('docs/PROMISES.md is not there: that it names every function is passed over')
        said = violations(found, None)
    if not found:
        said.append('there is no public function under crates/')
    for line in said:
        print(line)
    print(f'{len(said)} violations' if said else f'ok, {len(found)} public functions')
    return 1 if said else 0


SOURCE = """
// pub fn told(x: u8) -> u8 { x }
fn inner() -> bool { b"pub fn shown()" == b'{' }

#[no_mangle]
pub extern "C" fn good(
    part: &[u8], // with a requires
    at: usize,
) -> [u8; 4]
    ensures whole { result ≡ record { at = at } }
{
    inner(b'}')
}

impl Held {
    pub const NONE: Held = Held { at: 0 };

    pub fn silent(self) -> Held {
        // ensures { nothing }
        self
    }
}

pub fn loose(buf: &mut [u8], n: &'a mut u8) -> u8
    ensures { (result ≤ 4) × (n.new ≡ (1 × 2)) }
{
    4
}

pub fn same(x: u8) -> u8
    ensures { result ≡ result }
{
    x
}

pub fn kept(buf: &mut [u8], at: u8) -> bool
    ensures { (result ≡ good at) × (buf.new ≡ over buf.old buf.new) }
{
    true
}

pub fn partly(at: u8) -> Par
    ensures { result.0 ≡ at }
{
    Par(at)
}

pub fn choosy<'a>(x: &'a [u8]) -> u8
    requires { 1 ≤ length x.now }
    ensures { result ≡ x' }
{
    x[0]
}
"""

PAGE = """
`good` and `Held::silent` and `c::choosy` and `loose`, `same`, `kept` and `partly`.

## Functions with a requires

- `c::choosy`: only its sibling calls it.
- `c::good`: none.
- `c::gone`: none.
- c::odd

## Others

- `c::silent`: no exception.
"""


def self_test():
    found = [('f', *function) for function in functions('c', SOURCE)]
    expected = [
        ('f', 'c::good', 6, ['ensures'], []),
        ('f', 'c::Held::silent', 18, [], ['its answer']),
        ('f', 'c::loose', 24, ['ensures'], ['its answer', 'buf']),
        ('f', 'c::same', 30, ['ensures'], ['its answer']),
        ('f', 'c::kept', 36, ['ensures'], ['buf']),
        ('f', 'c::partly', 42, ['ensures'], ['its answer']),
        ('f', 'c::choosy', 48, ['requires', 'ensures'], []),
    ]
    silent = 'f:18: c::Held::silent has no ensures'
    loose = ['f:24: c::loose has no equation for its answer', 'f:24: c::loose has no equation for buf']
    empty = [f'f:{line}: c::{name} has no equation for {what}' for line, name, what in
             [(30, 'same', 'its answer'), (36, 'kept', 'buf'), (42, 'partly', 'its answer')]]
    choosy = 'f:48: c::choosy has a requires and is not listed'
    cases = [
        (found, expected),
        (violations(found, None), [silent, *loose, *empty, choosy]),
        (violations(found, '`good`, `silent`, `loose`, `same`, `kept`, `partly`, `choosy(x)`'),
         [silent, 'f:18: docs/PROMISES.md does not name c::Held::silent', *loose, *empty, choosy]),
        (violations(found, PAGE), [
            'docs/PROMISES.md:9: an exception is "- `crate::function`: reason"',
            silent,
            *loose,
            *empty,
            'docs/PROMISES.md: c::good is listed, and has no requires',
            'docs/PROMISES.md: c::gone is listed, and there is no such public function',
        ]),
    ]
    allowed = '`Held::silent`, `good`\n\n## Promises that allow two results\n\n- `c::loose`: one way.\n- `c::same`: one way.\n- `c::kept`: one way.\n' \
        '- `c::partly`: one way.\n- `c::choosy`: none.\n- `c::gone`: none.\n'
    cases.append((violations(found, allowed), [
        silent,
        choosy,
        'docs/PROMISES.md: c::choosy is listed, and has an equation for all',
        'docs/PROMISES.md: c::gone is listed, and there is no such public function',
    ]))
    cases.append((unnamed([('a', 'told'), ('b', 'kept')], '`told` and kept'), ['b: docs/PROMISES.md does not name kept']))
    wrong = [(got, wanted) for got, wanted in cases if got != wanted]
    for got, wanted in wrong:
        print(f'self-test: got {got}\n     expected {wanted}')
    print('self-test failed' if wrong else 'self-test ok')
    return 1 if wrong else 0


def main(words):
    if words == ['--self-test']:
        return self_test()
    if len(words) == 1 and not words[0].startswith('-'):
        return check(Path(words[0]))
    print(__doc__, file=sys.stderr)
    return 2


if __name__ == '__main__':
    sys.exit(main(sys.argv[1:]))

#!/usr/bin/env python3
"""make.py SEED COUNT [DIR] - messages for two programs to be compared on.

Without DIR: one file on standard output, at most COUNT messages and at most 60,000 bytes.
With DIR:    COUNT messages in as many files DIR/seedSEED-NNN.txt as they need, each at most 60,000 bytes.

Each message stands under a line `# name`. A name is SEED-NUMBER-what-was-done; where it is known
beforehand what a reader must answer the name ends in `,want=NUMBER` or `,want=NUMBER@LINE`.
The near misses are gone through in a shuffled order without repetition until all have been used.
The last message of a file is one that cannot stand elsewhere: its last line has no LF.
"""
import os
import random
import string
import sys

LIMIT = 60000
C = string.ascii_uppercase + string.digits
KINDS = ['INST', 'CANC', 'MDFC', 'TDDK']


# ---------------------------------------------------------------- accepted messages

def text(rng, least, most):
    wide = rng.choice([least, most, rng.randint(least, most)])
    return ''.join(rng.choice(C + '000') for _ in range(wide))


def leap(y):
    return y % 4 == 0 and (y % 100 != 0 or y % 400 == 0)


def days(y, m):
    return [31, 29 if leap(y) else 28, 31, 30, 31, 30, 31, 31, 30, 31, 30, 31][m - 1]


def date(rng):
    y = rng.choice([1, 4, 1899, 1900, 2000, 2023, 2024, 2024, 2100, 9999, rng.randint(1, 9999)])
    m = rng.choice([2, rng.randint(1, 12)])
    d = rng.choice([1, days(y, m), rng.randint(1, days(y, m))])
    return '%04d%02d%02d' % (y, m, d)


def clock(rng):
    return rng.choice(['000000', '235959', '%02d%02d%02d' % (rng.randint(0, 23), rng.randint(0, 59), rng.randint(0, 59))])


def amount(rng, zero):
    while True:
        whole = rng.choice(['0', '00', '17', '0017', '99', '1000000', '0001000000', '100',
                            str(rng.randint(0, 10 ** rng.randint(1, 14) - 1))])
        parts = rng.choice(['', '', '0', '000', '5', '50', '05', '050', '9999', '0001', '00010',
                            str(rng.randint(0, 10 ** rng.randint(1, 13) - 1))])
        room = 14 - len(whole) - len(parts)
        if room < 0:
            continue
        if rng.random() < 0.15:
            whole = '0' * room + whole
        elif rng.random() < 0.15:
            parts += '0' * room
        if zero or (whole + parts).strip('0'):
            return whole + ',' + parts


class Msg:
    """The lines of a message, each with a label."""

    def __init__(self, rng, kind=None, prep=None, links=None, pool=None, tdid=None, gupp=None, first=None,
                 buse=None, wide=False):
        r = rng
        maybe = lambda given: r.random() < 0.5 if given is None else given
        t = (lambda a, b: ''.join(r.choice(C) for _ in range(b))) if wide else (lambda a, b: text(r, a, b))
        self.rng = r
        self.kind = kind = kind or r.choice(KINDS)
        if links is None:
            links = {'INST': ['MAST'], 'TDDK': []}.get(kind)
            if links is None:
                links = ['MAST'] + [q for q in (['PREV', 'LIST'] if kind == 'MDFC' else ['LIST']) if maybe(True if wide else None)]
        links = list(links)
        r.shuffle(links)
        trade, settle = sorted([date(r), date(r)])
        if r.random() < 0.2:
            settle = trade
        self.buse = buse = buse or r.choice(['BUYI', 'SELL'])
        L = self.lines = []
        add = lambda label, line: L.append([label, line])
        add('pw', t(0, 12) if wide or r.random() < 0.6 else '')
        add('sender', t(1, 8))
        add('h3', '515/000/GSCC')
        add('h4', 'MBSCTRRS')
        add('GENL', ':16R:GENL')
        add('SEME', ':20C::SEME//' + t(1, 16))
        add('23G', ':23G:' + ('CANC' if kind == 'CANC' else 'NEWM'))
        if maybe(prep):
            add('PREP', ':98C::PREP//' + date(r) + clock(r))
        add('TRTR', ':22F::TRTR/GSCC/CASH')
        for q in links:
            add('LINK.' + q, ':16R:LINK')
            add(q, ':20C::%s//%s' % (q, t(1, 16)))
            add('LINKEND.' + q, ':16S:LINK')
        add('GENLEND', ':16S:GENL')
        add('CONFDET', ':16R:CONFDET')
        add('TRAD', ':98C::TRAD//' + trade + clock(r))
        add('SETT', ':98A::SETT//' + settle)
        add('DEAL', ':90A::DEAL//PRCT/' + ('12345678,123456' if wide else amount(r, True)))
        add('BUSE', ':22H::BUSE//' + buse)
        add('PROC', ':22F::PROC/GSCC/' + kind)
        add('PAYM', ':22H::PAYM//APMT')
        parties = ['BUYR', 'SELL']
        if (first or r.choice(parties)) == 'SELL':
            parties.reverse()
        self.parties = parties
        same = t(4, 4)
        for p in parties:
            add('PTY.' + p, ':16R:CONFPRTY')
            add(p, ':95R::%s/GSCC/PART%s' % (p, same if r.random() < 0.2 else t(4, 4)))
            if kind == 'TDDK' and p == ('SELL' if buse == 'BUYI' else 'BUYR'):
                add(p + '.REF', ':20C::PROC//' + t(1, 16))
            if maybe(tdid):
                add(p + '.TDID', ':70C::PACO//GSCC/TDID' + t(1, 20))
            add('PTYEND.' + p, ':16S:CONFPRTY')
        add('CONF', ':36B::CONF//FAMT/' + ('12345678,123456' if wide else amount(r, False)))
        add('CUSIP', ':35B:/US/' + t(9, 9))
        if maybe(pool):
            add('FIA', ':16R:FIA')
            add('POOL', ':13B::POOL/GSCC/' + t(1, 9))
            add('FIAEND', ':16S:FIA')
        tail = '/TDSV' + r.choice(['SBOD', 'TFTD', 'STIP'])
        if kind == 'TDDK':
            tail += '/DKRS' + t(4, 4)
        elif maybe(gupp):
            tail += '/GUPP' + r.choice('00123456789')
        add('TPRO', ':70E::TPRO//GSCC' + tail)
        add('CONFDETEND', ':16S:CONFDET')
        add('END', '-')

    def at(self, label):
        return next(i for i, (l, _) in enumerate(self.lines) if l == label)

    def get(self, label):
        return self.lines[self.at(label)][1]

    def set(self, label, line):
        self.lines[self.at(label)][1] = line

    def drop(self, *labels):
        self.lines = [x for x in self.lines if x[0] not in labels]

    def after(self, label, *lines):
        i = self.at(label) + 1
        self.lines[i:i] = [x if isinstance(x, list) else ['new', x] for x in lines]

    def before(self, label, *lines):
        i = self.at(label)
        self.lines[i:i] = [x if isinstance(x, list) else ['new', x] for x in lines]

    def swap(self, a, b):
        i, j = self.at(a), self.at(b)
        self.lines[i], self.lines[j] = self.lines[j], self.lines[i]

    def block(self, first, last):
        return [list(x) for x in self.lines[self.at(first):self.at(last) + 1]]

    def dropblock(self, first, last):
        i, j = self.at(first), self.at(last)
        del self.lines[i:j + 1]

    def bytes(self, ends=None):
        return join([l for _, l in self.lines], self.rng, ends)


def join(lines, rng, ends=None):
    ends = ends or rng.choice(['lf', 'crlf', 'mixed'])
    end = {'lf': lambda: '\n', 'crlf': lambda: '\r\n', 'mixed': lambda: rng.choice(['\n', '\r\n'])}[ends]
    return b''.join(l.encode('latin-1') + end().encode() for l in lines)


# ---------------------------------------------------------------- near misses

CASES = []


def case(name, want, where, edit, **need):
    """where: a label, a line number, None (line 0), or '?' (not foreseen)."""
    CASES.append((name, want, where, edit, need))


def value(label, prefix, name, val, want, where=None, also=None, **need):
    """The line's value is replaced; where defaults to the line itself for 10, 11, 12."""
    def edit(m):
        m.set(label, prefix + val)
        if also:
            also(m)
    case('%s-%s' % (label, name), want, (label if want in (10, 11, 12) else None) if where is None else where, edit, **need)


def build_cases():
    # --- every message as it stands, every kind
    for k in KINDS:
        case('accepted-%s-bare' % k, 0, None, lambda m: None, kind=k, prep=False, pool=False, tdid=False, gupp=False)
        case('accepted-%s-full' % k, 0, None, lambda m: None, kind=k, prep=True, pool=True, tdid=True, gupp=True, wide=True)
        for f in ('BUYR', 'SELL'):
            case('accepted-%s-%s-first' % (k, f), 0, None, lambda m: None, kind=k, first=f)

    # --- 1
    case('empty', 1, None, lambda m: b'')
    case('4097-bytes', 1, None, lambda m: filled(m, 4097))
    case('4096-bytes', 8, 5, lambda m: filled(m, 4096))
    case('4097-bytes-with-a-bad-one', 1, None, lambda m: filled(m, 4097).replace(b'MBSC', b'MB\x01C'))

    # --- 2
    for label in ('pw', 'sender', 'h3', 'SEME', 'TRTR', 'BUYR', 'CONF', 'TPRO', 'CONFDETEND', 'END'):
        for b in ('\x1f', '\x7f', '\x00', '\t', '\x80', '\xff', '\r'):
            if label in ('SEME', 'END') or b in ('\x1f', '\x7f', '\r'):
                def edit(m, label=label, b=b):
                    l = m.get(label)
                    i = 1 if label == 'END' else m.rng.randint(0, max(0, len(l) - 1))
                    m.set(label, l[:i] + b + l[i:])
                    if b == '\r':       # alone, also before CR LF; before LF it would belong to the ending
                        return crlf_or_not(m, label)
                case('byte-%02X-in-%s' % (ord(b), label), 2, label, edit)
        case('byte-20-in-' + label, {'pw': 4, 'sender': 4, 'h3': 4, 'SEME': 10, 'TRTR': 10, 'BUYR': 10, 'CONF': 11,
                                     'TPRO': 10, 'CONFDETEND': 5, 'END': 3}[label], label, lambda m, label=label: m.set(label, m.get(label) + ' '))
    case('byte-7E-in-SEME', 10, 'SEME', lambda m: m.set('SEME', ':20C::SEME//A~'))
    case('CR-CR-LF-after-END', 2, 'END', lambda m: m.bytes('crlf')[:-3] + b'-\r\r\n')
    case('CR-first-of-all', 2, 1, lambda m: b'\rX' + m.bytes())
    case('two-bad-bytes-the-first-decides', 2, 'TRAD', lambda m: (m.set('TRAD', m.get('TRAD') + '\x1f'), m.set('CONF', '\x00')) and None)

    # --- 3
    for label in ('pw', 'sender', 'h4', 'GENL', 'SEME', 'GENLEND', 'CONFDET', 'TPRO', 'END'):
        case('early-hyphen-before-' + label, 3, 'new', lambda m, label=label: m.before(label, '-'))
    case('two-early-hyphens', 3, 'new', lambda m: m.before('TRAD', '-') or m.before('END', ['later', '-']))
    case('hyphen-then-X', 3, 'END', lambda m: m.after('END', 'X'))
    case('hyphen-then-empty-line', 3, 'END', lambda m: m.after('END', ''))
    case('hyphen-twice', 3, 'END', lambda m: m.after('END', ['later', '-']))
    case('no-hyphen', 3, 'CONFDETEND', lambda m: m.drop('END'))
    for name, l in (('hyphens', '--'), ('hyphen-blank', '- '), ('blank-hyphen', ' -'), ('empty', ''), ('tag', ':99A:-'), ('underscore', '_')):
        case('last-line-' + name, 3, 'END', lambda m, l=l: m.set('END', l))
    case('only-an-empty-line', 3, 1, lambda m: m.rng.choice([b'\n', b'\r\n']))
    case('only-X', 3, 1, lambda m: b'X\n')

    # --- 4
    case('only-hyphen', 4, 1, lambda m: m.rng.choice([b'-\n', b'-\r\n']))
    case('X-and-hyphen', 4, 2, lambda m: b'X\n-\n')
    for n in (2, 3):
        case('header-of-%d-and-hyphen' % n, 4, n + 1, lambda m, n=n: m.lines.__delitem__(slice(n, -1)))
    case('header-and-hyphen', 9, 5, lambda m: m.lines.__delitem__(slice(4, -1)))
    for w in (0, 1, 12, 13, 20, 21):
        case('password-of-%d' % w, 0 if w <= 12 else 4, None if w <= 12 else 'pw', lambda m, w=w: m.set('pw', 'Z' * w))
    for w in (0, 1, 8, 9, 21):
        case('sender-of-%d' % w, 0 if 1 <= w <= 8 else 4, None if 1 <= w <= 8 else 'sender', lambda m, w=w: m.set('sender', '0' * w))
    for l in ('pw', 'sender'):
        for name, v in (('lower', 'aB1'), ('blank', 'A 1'), ('leading-blank', ' A1'), ('only-blank', ' '), ('slash', 'A/1'),
                        ('at', 'A@'), ('bracket', 'A['), ('colon', '9:'), ('slash-before-0', '/0')):
            case('%s-with-%s' % (l, name), 4, l, lambda m, l=l, v=v: m.set(l, v))
    for v in ('', '515/000/GSC', '515/000/GSCCC', '515/000/GSCC ', '518/000/GSCC', '515/000/gscc', '515/001/GSCC', 'MBSCTRRS', ' 515/000/GSCC'):
        case('third-line-%s' % v.replace(' ', '_'), 4, 'h3', lambda m, v=v: m.set('h3', v))
    for v in ('', 'MBSCTRR', 'MBSCTRRSS', 'MBSCTRRS ', 'mbsctrrs', 'MBSCTRRT', '515/000/GSCC'):
        case('fourth-line-%s' % v.replace(' ', '_'), 4, 'h4', lambda m, v=v: m.set('h4', v))
    case('no-password-line', 4, 2, lambda m: m.drop('pw'))
    case('no-sender-line', 4, 2, lambda m: m.drop('sender'))
    case('no-third-line', 4, 3, lambda m: m.drop('h3'))
    case('no-fourth-line', 4, 4, lambda m: m.drop('h4'))
    case('header-line-too-many', 5, 5, lambda m: m.after('h4', 'MBSCTRRS'))
    case('header-wrong-twice', 4, 'sender', lambda m: m.set('sender', '') or m.set('h4', ''))

    # --- 5
    for label in ('GENL', 'SEME', 'GENLEND', 'TRAD', 'BUYR', 'CUSIP', 'CONFDETEND', 'END'):
        case('empty-line-before-' + label, 5, 'new', lambda m, label=label: m.before(label, ''))
    for name, v in (('word', 'X'), ('no-first-colon', '20C::SEME//1'), ('one-digit', ':2C::SEME//1'), ('letter-for-digit', ':2OC::SEME//1'),
                    ('lower', ':20c::SEME//1'), ('three-digits', ':200:SEME//1'), ('two-letters', ':20CC:SEME//1'),
                    ('no-second-colon', ':20C'), ('nothing-behind', ':20C:'), ('blank-before', ' :20C::SEME//1'), ('digit-for-letter', ':201:SEME'),
                    ('colon-only', ':'), ('semicolon', ':20C;:SEME//1'), ('slash-digit', ':/0C::SEME//1'), ('at-letter', ':20@::SEME//1'),
                    ('bracket-letter', ':20[::SEME//1'), ('colon-digit', ':2:C::SEME//1'), ('number-sign', '#SEME')):
        case('shape-' + name, 5, 'SEME', lambda m, v=v: m.set('SEME', v))
    for name, v in (('17', 'A' * 17), ('none', ''), ('lower', 'GENl'), ('blank-after', 'GENL '), ('blank', ' '), ('slash', 'GENL/'), ('hyphen', '-')):
        case('open-name-' + name, 5, 'GENL', lambda m, v=v: m.set('GENL', ':16R:' + v))
        case('close-name-' + name, 5, 'GENLEND', lambda m, v=v: m.set('GENLEND', ':16S:' + v))
        case('last-close-name-' + name, 5, 'CONFDETEND', lambda m, v=v: m.set('CONFDETEND', ':16S:' + v))
    case('block-name-of-16', 8, 'new', lambda m: m.after('GENL', ':16R:' + 'A' * 16, ['x', ':16S:' + 'A' * 16]))
    case('block-name-of-1', 8, 'new', lambda m: m.after('GENL', ':16R:0', ['x', ':16S:0']))
    case('block-name-of-17', 5, 'new', lambda m: m.after('GENL', ':16R:' + 'A' * 17, ['x', ':16S:' + 'A' * 17]))
    case('bad-name-and-nothing-open', 5, 'new', lambda m: m.before('GENL', ':16S:a'))
    case('one-character-behind-tag', 8, 'new', lambda m: m.after('GENL', ':99Z:x'))
    case('shape-after-nesting-fault', 6, 'new', lambda m: m.before('GENL', ':16S:GENL') or m.set('TRAD', 'X'))

    # --- 6
    opens = [('GENL', 'GENLEND'), ('LINK.MAST', 'LINKEND.MAST'), ('CONFDET', 'CONFDETEND'), ('PTY.BUYR', 'PTYEND.BUYR'), ('PTY.SELL', 'PTYEND.SELL'), ('FIA', 'FIAEND')]
    for o, c in opens:
        need = dict(kind='INST', pool=True)
        nxt = {'GENLEND': 'END', 'LINKEND.MAST': 'GENLEND', 'CONFDETEND': 'END', 'FIAEND': 'CONFDETEND'}.get(c)
        case('without-close-' + c, 6, nxt or 'CONFDETEND', lambda m, c=c: m.drop(c), **need)
        wh = {'GENL': 'GENLEND', 'CONFDET': 'CONFDETEND'}.get(o, c)
        case('without-open-' + o, 6, wh, lambda m, o=o: m.drop(o), **need)
        case('close-of-another-name-' + c, 6, c, lambda m, c=c: m.set(c, ':16S:GENLX'), **need)
        case('close-twice-' + c, 6, 'new', lambda m, c=c: m.after(c, m.get(c)), **need)
        case('open-twice-' + o, 6, {'GENL': 'END', 'CONFDET': 'END', 'LINK.MAST': 'GENLEND'}.get(o, 'CONFDETEND'), lambda m, o=o: m.after(o, m.get(o)), **need)
        case('close-name-cut-' + c, 6, c, lambda m, c=c: m.set(c, m.get(c)[:-1]), **need)
        case('close-name-longer-' + c, 6, c, lambda m, c=c: m.set(c, m.get(c) + '0'), **need)
    case('crossed-closes', 6, 'GENLEND', lambda m: m.swap('LINKEND.MAST', 'GENLEND'), kind='INST')
    case('close-at-the-top', 6, 'new', lambda m: m.before('GENL', ':16S:GENL'))
    case('close-between-blocks', 6, 'new', lambda m: m.after('GENLEND', ':16S:LINK'))
    case('close-after-all', 6, 'new', lambda m: m.before('END', ':16S:CONFDET'))
    case('open-at-the-end', 6, 'END', lambda m: m.before('END', ':16R:GENL'))
    case('LINK-open-at-the-end', 6, 'END', lambda m: m.before('END', ':16R:LINK'))

    # --- 7, and how deep one may go
    def nest(m, label, n, shut=True, bad=None):
        names = ['N%d' % i for i in range(n)]
        if bad is not None:
            names[bad] = 'n'
        new = [['o%d' % i, ':16R:' + x] for i, x in enumerate(names)]
        if shut:
            new += [['c%d' % i, ':16S:' + x] for i, x in reversed(list(enumerate(names)))]
        m.after(label, *new)
    for label, base in (('h4', 0), ('GENL', 1), ('TRTR', 1), ('GENLEND', 0), ('TRAD', 1), ('PTY.BUYR', 2), ('CONFDETEND', 0)):
        for depth in (1, 2, 7, 8, 9, 10):
            n = depth - base
            if n <= 0:
                continue
            want, wh = (8, 'o0') if depth <= 8 else (7, 'o%d' % (8 - base))
            case('nest-%d-after-%s' % (depth, label), want, wh, lambda m, label=label, n=n: nest(m, label, n), kind='INST')
        if base == 0:
            want, wh = {'h4': (7, 'GENL'), 'GENLEND': (7, 'CONFDET'), 'CONFDETEND': (6, 'END')}[label]
            case('nest-8-left-open-after-' + label, want, wh, lambda m, label=label: nest(m, label, 8, shut=False), kind='INST')
            case('nest-9-left-open-after-' + label, 7, 'o8', lambda m, label=label: nest(m, label, 9, shut=False), kind='INST')
            case('nest-9-bad-name-on-ninth-after-' + label, 5, 'o8', lambda m, label=label: nest(m, label, 9, bad=8), kind='INST')
            case('nest-10-bad-name-on-tenth-after-' + label, 7, 'o8', lambda m, label=label: nest(m, label, 10, bad=9), kind='INST')
    case('known-blocks-nested-to-9', 7, 'o7', lambda m: m.after('CONFDET', *[['o%d' % i, ':16R:' + n] for i, n in enumerate(['GENL', 'LINK', 'CONFDET', 'FIA', 'GENL', 'LINK', 'FIA', 'LINK'])]))
    case('two-towers-of-8', 8, 'o0', lambda m: nest(m, 'h4', 8) or nest(m, 'GENLEND', 8))

    # --- 8: unknown lines at every place
    full = dict(kind='MDFC', prep=True, pool=True, tdid=True, gupp=True, links=['MAST', 'PREV', 'LIST'])
    labels = [l for l, _ in Msg(random.Random(1), first='BUYR', **full).lines][4:]
    for label in labels:
        case('unknown-tag-before-' + label, 8, 'new', lambda m, label=label: m.before(label, m.rng.choice([':99Z::ABCD//1', ':20D::SEME//1', ':21C::SEME//1', ':00A:x', ':20C::ABCD//1', ':16T:GENL', ':17R:GENL'])), first='BUYR', **full)
        case('unknown-block-before-' + label, 8, 'new', lambda m, label=label: m.before(label, ':16R:OTHR', ['x', ':16S:OTHR']), first='BUYR', **full)
    # doubled: a second one of a slot already used
    for label in ('SEME', '23G', 'PREP', 'TRTR', 'MAST', 'PREV', 'LIST', 'TRAD', 'SETT', 'DEAL', 'BUSE', 'PROC', 'PAYM', 'BUYR', 'SELL', 'BUYR.TDID',
                  'SELL.TDID', 'CONF', 'CUSIP', 'POOL', 'TPRO'):
        case('doubled-' + label, 8, 'new', lambda m, label=label: m.after(label, m.get(label)), **full)
    for o, c in (('GENL', 'GENLEND'), ('CONFDET', 'CONFDETEND'), ('FIA', 'FIAEND')):
        case('doubled-block-' + o, 8, 'first', lambda m, o=o, c=c: m.after(c, *relabel(m.block(o, c))), **full)
    for q in ('MAST', 'PREV', 'LIST'):
        case('second-LINK-of-' + q, 8, 'second', lambda m, q=q: m.before('GENLEND', *relabel(m.block('LINK.' + q, 'LINKEND.' + q))), **full)
        case('second-LINK-of-%s-bad-value' % q, 8, 'second', lambda m, q=q: m.before('GENLEND', ['first', ':16R:LINK'], ['second', ':20C::' + q], ['third', ':16S:LINK']), **full)
    for p in ('BUYR', 'SELL'):
        case('third-party-' + p, 8, 'first', lambda m, p=p: m.before('CONF', *relabel(m.block('PTY.' + p, 'PTYEND.' + p))), **full)
        case('both-parties-' + p, 8, 'again', lambda m, p=p: both(m, p), **full)
    for q in ('MAST', 'PREV', 'LIST', 'PROC', 'SEME', 'ABCD'):
        case('fourth-LINK-of-' + q, 8, 'second', lambda m, q=q: m.before('GENLEND', ['first', ':16R:LINK'], ['second', ':20C::%s//1' % q], ['third', ':16S:LINK']), **full)
    case('empty-LINK', 9, 'third', lambda m: m.before('GENLEND', ['first', ':16R:LINK'], ['third', ':16S:LINK']))
    case('empty-LINK-after-three', 9, 'third', lambda m: m.before('GENLEND', ['first', ':16R:LINK'], ['third', ':16S:LINK']), **full)
    case('two-20C-in-one-LINK', 8, 'new', lambda m: m.after('MAST', ':20C::LIST//1'), kind='INST')
    case('23G-in-LINK', 8, 'new', lambda m: m.after('LINK.MAST', ':23G:NEWM'), kind='INST')
    case('LINK-in-LINK', 8, 'first', lambda m: m.after('MAST', ['first', ':16R:LINK'], ':20C::LIST//1', ['x', ':16S:LINK']), kind='INST')
    case('PREP-after-TRTR', 8, 'PREP', lambda m: m.swap('PREP', 'TRTR') or None, prep=True)
    case('TRTR-after-LINK', 9, 'LINK.MAST', lambda m: move(m, 'TRTR', 'GENLEND'), kind='INST', prep=False)
    case('LINK-before-TRTR', 9, 'first', lambda m: m.before('TRTR', ['first', ':16R:LINK'], ':20C::MAST//1', ['x', ':16S:LINK']), kind='TDDK')
    case('LINK-after-GENL', 8, 'first', lambda m: m.after('GENLEND', ['first', ':16R:LINK'], ':20C::MAST//1', ['x', ':16S:LINK']), kind='TDDK')
    case('LINK-in-CONFDET', 8, 'first', lambda m: m.after('PAYM', ['first', ':16R:LINK'], ':20C::MAST//1', ['x', ':16S:LINK']), kind='TDDK')
    case('FIA-in-GENL', 8, 'first', lambda m: m.before('GENLEND', ['first', ':16R:FIA'], ':13B::POOL/GSCC/1', ['x', ':16S:FIA']))
    case('FIA-after-TPRO', 8, 'first', lambda m: m.after('TPRO', ['first', ':16R:FIA'], ':13B::POOL/GSCC/1', ['x', ':16S:FIA']), pool=False)
    case('FIA-before-CUSIP', 9, 'first', lambda m: m.before('CUSIP', ['first', ':16R:FIA'], ':13B::POOL/GSCC/1', ['x', ':16S:FIA']), pool=False)
    case('FIA-empty', 9, 'x', lambda m: m.after('CUSIP', ['first', ':16R:FIA'], ['x', ':16S:FIA']), pool=False)
    case('POOL-outside-FIA', 8, 'new', lambda m: m.after('CUSIP', ':13B::POOL/GSCC/1'), pool=False)
    case('party-TDID-before-REF', 8, '?', lambda m: m.swap(other(m) + '.REF', other(m) + '.TDID'), kind='TDDK', tdid=True)
    case('party-REF-before-95R', 9, '?', lambda m: m.swap(other(m) + '.REF', other(m)), kind='TDDK')
    case('party-of-unknown-qualifier', 8, 'BUYR', lambda m: m.set('BUYR', ':95R::BUYI/GSCC/PART0001'))
    case('party-95P', 8, 'BUYR', lambda m: m.set('BUYR', ':95P::BUYR/GSCC/PART0001'))
    case('party-empty', 9, 'PTYEND.BUYR', lambda m: m.drop('BUYR', 'BUYR.TDID', 'BUYR.REF'))
    case('party-in-party', 8, 'first', lambda m: m.after('BUYR', ['first', ':16R:CONFPRTY'], ':95R::SELL/GSCC/PART0001', ['x', ':16S:CONFPRTY']))
    case('party-before-PAYM', 9, 'first', lambda m: m.before('PAYM', ['first', ':16R:CONFPRTY'], ':95R::SELL/GSCC/PART0001', ['x', ':16S:CONFPRTY']))
    case('SEME-under-wrong-qualifier', 8, 'SEME', lambda m: m.set('SEME', ':20C::MAST//1'))
    for v in (':20C::SEM', ':20C:SEME//1', ':20C::SEM//1', ':20C::seme//1', ':20C: SEME//1', ':20A::SEME//1', ':20C:::SEME//1', ':21C::SEME//1', ':20C::EMES//1'):
        case('slot-not-met-by-' + v.replace(' ', '_'), 8, 'SEME', lambda m, v=v: m.set('SEME', v))
    for v in (':20C::SEME', ':20C::SEMEX', ':20C::SEME/X', ':20C::SEME/', ':20C::SEME//', ':20C::SEMES//1', ':20C::SEME///1', ':20C::SEME1', ':20C::SEME://1', ':20C::SEME //1'):
        case('slot-met-by-' + v.replace(' ', '_'), 10, 'SEME', lambda m, v=v: m.set('SEME', v))
    for label, line in (('TRTR', ':22H::TRTR/GSCC/CASH'), ('TRTR', ':22F::TRTS/GSCC/CASH'), ('23G', ':23H:NEWM'), ('TRAD', ':98A::TRAD//20240229'), ('TRAD', ':98C::SETT//20240229000000'),
                        ('SETT', ':98C::SETT//20240229000000'), ('SETT', ':98A::TRAD//20240229'), ('DEAL', ':90B::DEAL//PRCT/1,'), ('DEAL', ':90A::PRCT//DEAL/1,'), ('BUSE', ':22F::BUSE//BUYI'),
                        ('PROC', ':22H::PROC/GSCC/INST'), ('PROC', ':20C::PROC//INST'), ('PAYM', ':22F::PAYM//APMT'), ('CONF', ':36A::CONF//FAMT/1,'), ('CONF', ':36B::FAMT//CONF/1,'), ('CUSIP', ':35A:/US/123456789'),
                        ('POOL', ':13A::POOL/GSCC/1'), ('POOL', ':13B::GSCC/POOL/1'), ('TPRO', ':70C::TPRO//GSCC/TDSVSTIP'), ('TPRO', ':70E::PACO//GSCC/TDSVSTIP'), ('TPRO', ':70E::TPR')):
        case('no-slot-%s-as-%s' % (label, line), 8, label, lambda m, label=label, line=line: m.set(label, line), **full)
    for label, line in (('GENLEND', ':20C::SEME//1'), ('GENLEND', ':98C::TRAD//20240229000000'), ('CONFDETEND', ':70E::TPRO//GSCC/TDSVSTIP'), ('h4', ':20C::SEME//1'), ('h4', ':23G:NEWM')):
        case('field-at-the-top-after-' + label, 8, 'new', lambda m, label=label, line=line: m.after(label, line))
    case('PROC-in-GENL', 8, 'new', lambda m: m.after('TRTR', ':22F::PROC/GSCC/INST'))
    case('contra-in-CONFDET', 8, 'new', lambda m: m.after('PROC', ':20C::PROC//1'))

    # --- 9: a mandatory line passed over, the next line met
    for label in ('SEME', '23G', 'TRTR', 'TRAD', 'SETT', 'DEAL', 'BUSE', 'PROC', 'PAYM', 'CONF', 'CUSIP', 'TPRO', 'MAST', 'PREV', 'LIST', 'BUYR', 'SELL', 'POOL'):
        def edit(m, label=label):
            i = m.at(label)
            del m.lines[i]
            m.lines[i][0] = 'next'
        case('without-' + label, 9, 'next', edit, **full)
    case('without-GENL-block', 9, 5, lambda m: m.dropblock('GENL', 'GENLEND'))
    case('without-CONFDET-block', 9, 'END', lambda m: m.dropblock('CONFDET', 'CONFDETEND'))
    case('without-both-blocks', 9, 5, lambda m: m.dropblock('GENL', 'CONFDETEND'))
    case('blocks-exchanged', 9, 5, lambda m: exchange_blocks(m))
    for p in ('BUYR', 'SELL'):
        case('without-party-' + p, 9, 'CONF', lambda m, p=p: m.dropblock('PTY.' + p, 'PTYEND.' + p))
    case('without-parties', 9, 'CONF', lambda m: m.dropblock('PTY.' + m.parties[0], 'PTYEND.' + m.parties[1]))
    case('empty-GENL', 9, 'GENLEND', lambda m: m.lines.__delitem__(slice(m.at('SEME'), m.at('GENLEND'))))
    case('empty-CONFDET', 9, 'CONFDETEND', lambda m: m.lines.__delitem__(slice(m.at('TRAD'), m.at('CONFDETEND'))))
    order = ['TRAD', 'SETT', 'DEAL', 'BUSE', 'PROC', 'PAYM']
    for a, b in zip(order, order[1:]):
        case('exchanged-%s-%s' % (a, b), 9, b, lambda m, a=a, b=b: m.swap(a, b))
    case('exchanged-CONF-CUSIP', 9, 'CUSIP', lambda m: m.swap('CONF', 'CUSIP'))
    case('exchanged-SEME-23G', 9, '23G', lambda m: m.swap('SEME', '23G'))
    case('exchanged-23G-TRTR', 9, 'TRTR', lambda m: m.swap('23G', 'TRTR'), prep=False)
    case('exchanged-23G-PREP', 9, 'PREP', lambda m: m.swap('23G', 'PREP'), prep=True)
    case('CONF-before-parties', 9, 'CONF', lambda m: move(m, 'CONF', 'PTY.' + m.parties[0]))
    case('CONF-between-parties', 9, 'CONF', lambda m: move(m, 'CONF', 'PTY.' + m.parties[1]))
    case('bad-date-and-no-CUSIP', 9, 'next', lambda m: (m.set('TRAD', ':98C::TRAD//'), m.lines.__delitem__(m.at('CUSIP')), m.lines[m.at('CONF') + 1].__setitem__(0, 'next')) and None)

    # --- 10: widths and characters of each text
    texts = [('SEME', ':20C::SEME//', 1, 16), ('MAST', ':20C::MAST//', 1, 16), ('PREV', ':20C::PREV//', 1, 16), ('LIST', ':20C::LIST//', 1, 16),
             ('BUYR', ':95R::BUYR/GSCC/PART', 4, 4), ('SELL', ':95R::SELL/GSCC/PART', 4, 4), ('BUYR.TDID', ':70C::PACO//GSCC/TDID', 1, 20),
             ('SELL.TDID', ':70C::PACO//GSCC/TDID', 1, 20), ('CUSIP', ':35B:/US/', 9, 9), ('POOL', ':13B::POOL/GSCC/', 1, 9)]
    for label, prefix, least, most in texts:
        for w in sorted({0, least - 1, least, least + 1, most - 1, most, most + 1, most + 5, 40}):
            good = least <= w <= most
            value(label, prefix, 'of-%d' % w, '0' * w, 0 if good else 10, **full)
        mid = 'ABCDEFGHI'[:max(least, 4)] if most >= 4 else 'AB'
        for name, bad in (('lower', 'a'), ('blank', ' '), ('slash', '/'), ('colon', ':'), ('at', '@'), ('bracket', '['), ('comma', ','), ('tilde', '~')):
            value(label, prefix, 'with-' + name, mid[:-1] + bad, 10, **full)
        for cut in (prefix[:-1], prefix + '/', prefix[:-1] + '.'):
            name = 'fixed-' + cut.replace(' ', '_')
            stays = cut.startswith(prefix[:10]) if label != 'CUSIP' else cut.startswith(':35B:')
            if stays:
                case(label + '-' + name, 10, label, lambda m, label=label, cut=cut, mid=mid: m.set(label, cut + mid), **full)
    for w in (0, 1, 16, 17):
        def edit(m, w=w):
            m.set(other(m) + '.REF', ':20C::PROC//' + 'R' * w)
        case('contra-of-%d' % w, 0 if 1 <= w <= 16 else 10, None if 1 <= w <= 16 else '?', edit, kind='TDDK')
    words = [('23G', ':23G:', ['NEW M', 'NEWN', 'newm', 'NEWMX', 'NEWM ', 'NEW', ':NEWM', 'INST', '/NEWM']),
             ('BUSE', ':22H::BUSE//', ['', 'BUY', 'BUYR', 'BUYII', 'buyi', 'SEL', 'SELLR', 'SELL ']),
             ('PROC', ':22F::PROC/GSCC/', ['', 'INS', 'INSTX', 'NEWM', 'TDD', 'inst', 'INST ', 'MDFD', 'CANX']),
             ('TRTR', ':22F::TRTR', ['', '/GSCC/CAS', '/GSCC/CASHX', '/GSCC/CASH ', '//CASH', '/GSCC/REPU', '/gscc/CASH', '//GSCC/CASH', 'X']),
             ('PAYM', ':22H::PAYM', ['', '//', '//APM', '//APMTX', '//FREE', '/APMT', '//APMT/', '/GSCC/APMT', '//apmt'])]
    for label, prefix, bad in words:
        for v in bad:
            value(label, prefix, 'word-%s' % (v.replace(' ', '_') or 'none'), v, 10 if (prefix + v)[5:] else 5, **full)
    for v in ('/US', '/US/', '/us/123456789', '/GB/123456789', ':US/123456789', '//US/123456789', 'US/123456789', '/US123456789', '/US/12345678 ', ':/US/123456789', '1'):
        value('CUSIP', ':35B:', v.replace(' ', '_'), v, 10)
    for label, prefix in (('DEAL', ':90A::DEAL'), ('CONF', ':36B::CONF')):
        fixed = '//PRCT/' if label == 'DEAL' else '//FAMT/'
        for v in ('', '/', '//', fixed[:-1], fixed[:-1] + '1,', fixed[1:] + '1,', '/' + fixed + '1,', fixed[:-2] + '/1,', fixed.lower() + '1,', '//FAMT/1,' if label == 'DEAL' else '//PRCT/1,', '/GSCC/1,', '1,'):
            value(label, prefix, 'fixed-%s' % (v or 'none'), v, 10)
    for label, prefix in (('TRAD', ':98C::TRAD'), ('SETT', ':98A::SETT'), ('PREP', ':98C::PREP')):
        d = '20240229' + ('' if label == 'SETT' else '093000')
        for v in ('', '/', '/' + d, d, ':' + d, '/X' + d, ' //' + d):
            value(label, prefix, 'fixed-%s' % (v.replace(' ', '_') or 'none'), v, 10, prep=True)
    narr = [('none', ''), ('slash', '/'), ('TDSV-only', '/TDSV'), ('cut', '/TDSVSTI'), ('unknown', '/TDSVSTOP'), ('longer', '/TDSVSTIPX'), ('slash-after', '/TDSVSTIP/'),
            ('lower', '/TDSVstip'), ('GUPP-empty', '/TDSVSTIP/GUPP'), ('GUPP-letter', '/TDSVSTIP/GUPPA'), ('GUPP-two', '/TDSVSTIP/GUPP10'), ('GUPP-twice', '/TDSVSTIP/GUPP1/GUPP1'),
            ('GUPP-slash', '/TDSVSTIP/GUPP/'), ('GUPP-first', '/GUPP1/TDSVSTIP'), ('GUPP-colon', '/TDSVSTIP/GUPP:'), ('no-slash', '/TDSVSTIPGUPP1'), ('blank-after', '/TDSVSTIP '), ('GUPP-blank', '/TDSVSTIP/GUPP1 '),
            ('DKRS-3', '/TDSVSTIP/DKRSABC'), ('DKRS-5', '/TDSVSTIP/DKRSABCDE'), ('DKRS-0', '/TDSVSTIP/DKRS'), ('DKRS-lower', '/TDSVSTIP/DKRSABCd'), ('DKRS-slash', '/TDSVSTIP/DKRSABC/'),
            ('DKRS-twice', '/TDSVSTIP/DKRSABCD/DKRSABCD'), ('DKRS-before-GUPP', '/TDSVSTIP/DKRSABCD/GUPP1'), ('DKRS-first', '/DKRSABCD/TDSVSTIP'), ('unknown-more', '/TDSVSTIP/XXXX1'), ('TDSV-twice', '/TDSVSTIP/TDSVSTIP'),
            ('two-slashes', '//TDSVSTIP'), ('no-TDSV', '/STIP'), ('GUPP-and-more', '/TDSVSTIP/GUPP1/'), ('over-35', '/TDSVSTIP/GUPP1/DKRSABCD0123456789')]
    for name, v in narr:
        value('TPRO', ':70E::TPRO//GSCC', 'narrative-' + name, v, 10)
    for v in ('', '/', '//', '//GSC', '//GSCC', '/GSCC/TDSVSTIP', '//gscc/TDSVSTIP', '//GSCCTDSVSTIP', '///GSCC/TDSVSTIP', '//GSCX/TDSVSTIP', '//TDSVSTIP'):
        value('TPRO', ':70E::TPRO', 'fixed-%s' % (v or 'none'), v, 10)
    for w in ('SBOD', 'TFTD', 'STIP'):
        for g in ('', '/GUPP0', '/GUPP9'):
            value('TPRO', ':70E::TPRO//GSCC', 'good-' + w + g, '/TDSV' + w + g, 0, kind='INST')
        value('TPRO', ':70E::TPRO//GSCC', 'good-DK-' + w, '/TDSV' + w + '/DKRS0000', 0, kind='TDDK')

    # --- 11
    for label, prefix in (('DEAL', ':90A::DEAL//PRCT/'), ('CONF', ':36B::CONF//FAMT/')):
        for name, v in (('empty', ''), ('comma', ','), ('no-comma', '17'), ('two-commas', '1,2,'), ('commas-together', '1,,'), ('no-whole', ',5'), ('minus', '-1,'), ('plus', '+1,'), ('blank-first', ' 1,'),
                        ('blank-last', '1, '), ('point', '1.5'), ('letter', '1,A'), ('fifteen-digits', '123456789012345,'), ('fifteen-noughts', '0' * 15 + ','), ('sixteen-wide', '12345678901234,5'),
                        ('fifteen-no-comma', '123456789012345'), ('fourteen-no-comma', '12345678901234'), ('fourteen-decimals', '0,' + '1' * 14), ('fourteen-decimals-noughts', '1,' + '0' * 14),
                        ('comma-and-fourteen', ',' + '1' * 14), ('slash', '1,/'), ('colon', '1,:'), ('long', '1' * 30 + ','), ('only-noughts-no-comma', '000'), ('semicolon', '1;5'), ('apostrophe', '1000,5\'')):
            value(label, prefix, 'amount-' + name, v, 11)
        for name, v in (('fourteen-digits', '12345678901234,'), ('fourteen-nines', '9' * 14 + ','), ('thirteen-and-one', '1234567890123,4'), ('one-and-thirteen', '1,0000000000001'), ('nought-and-thirteen', '0,0000000000001'),
                        ('noughts-everywhere', '0000017,5000000'), ('thirteen-decimals-nought', '7,0000000000000'), ('1', '1,'), ('0017', '0017,'), ('99,50', '99,50'), ('10', '10,'), ('100,10', '0100,010'), ('0,1', '00,10'), ('nought-nine', '00000000000001,')):
            value(label, prefix, 'amount-' + name, v, 0)
        for name, v in (('zero', '0,'), ('zero-decimals', '0,000'), ('zeros', '000,'), ('zero-wide', '0,' + '0' * 13), ('zero-fourteen', '0' * 14 + ',')):
            value(label, prefix, 'amount-' + name, v, 0 if label == 'DEAL' else 16)

    # --- 12
    late = lambda m: m.set('SETT', ':98A::SETT//99991231')
    early = lambda m: m.set('TRAD', ':98C::TRAD//00010101000000')
    for label, prefix, tail, also in (('TRAD', ':98C::TRAD//', '093000', late), ('PREP', ':98C::PREP//', '093000', None), ('SETT', ':98A::SETT//', '', early)):
        for d in ('20230229', '19000229', '21000229', '20240230', '20240001', '20241301', '20240100', '20240132', '20240431', '20240631', '20240931', '20241131', '00000101', '20241232', '99990229', '20249901', '20240199', '00000000', '18000229'):
            value(label, prefix, 'date-' + d, d + tail, 12, also=also, prep=True)
        for d in ('20240229', '20000229', '24000229', '00010101', '99991231', '20230228', '20240430', '20241130', '20240131', '00040229', '04000229', '20240731', '20240831', '19960229'):
            value(label, prefix, 'date-' + d, d + tail, 0, also=also, prep=True)
        for name, v in (('empty', ''), ('short', '2024022'), ('long', '202402290930001'), ('letter', '2024022A' + tail), ('blank-last', '20240229' + tail + ' '), ('blank-first', ' 20240229' + tail), ('hyphens', '2024-02-29'),
                        ('minus', '-0240229' + tail), ('cut', ('20240229' + tail)[:-1]), ('one-more', '20240229' + tail + '0'), ('other-form', '20240229' if tail else '20240229093000'), ('slash', '2024/229' + tail), ('colon', '2024022:' + tail)):
            value(label, prefix, 'date-' + name, v, 12, also=also, prep=True)
        if tail:
            for t, want in (('000000', 0), ('235959', 0), ('240000', 12), ('236000', 12), ('235960', 12), ('006000', 12), ('000060', 12), ('990000', 12), ('00000A', 12), ('0930', 12), ('09300', 12), ('0930000', 12), ('005959', 0), ('230000', 0), ('09:300', 12), ('000099', 12)):
                value(label, prefix, 'time-' + t, '20240229' + t, want, also=also, prep=True)
    # the first faulty line decides
    case('DEAL-and-CONF-wrong', 11, 'DEAL', lambda m: m.set('DEAL', ':90A::DEAL//PRCT/') or m.set('CONF', ':36B::CONF//'))
    case('SEME-and-TRAD-wrong', 10, 'SEME', lambda m: m.set('SEME', ':20C::SEME//') or m.set('TRAD', ':98C::TRAD//'))
    case('SETT-and-DEAL-wrong', 12, 'SETT', lambda m: m.set('SETT', ':98A::SETT//') or m.set('DEAL', ':90A::DEAL'))

    # --- 13
    for k in KINDS:
        case('23G-against-' + k, 13, None, lambda m, k=k: m.set('23G', ':23G:' + ('NEWM' if k == 'CANC' else 'CANC')), kind=k)
        case('23G-against-%s-and-all-else' % k, 13, None, lambda m, k=k: (m.set('23G', ':23G:' + ('NEWM' if k == 'CANC' else 'CANC')), m.set('CONF', ':36B::CONF//FAMT/0,'), m.set('SETT', ':98A::SETT//00010101')) and None, kind=k)
    # --- 14 and 15
    for k in ('INST', 'CANC', 'MDFC'):
        case('%s-without-MAST' % k, 14, None, lambda m: None, kind=k, links=[])
        case('%s-without-MAST-with-PREV' % k, 14, None, lambda m: None, kind=k, links=['PREV'])
        case('%s-without-MAST-with-LIST' % k, 14, None, lambda m: None, kind=k, links=['LIST'])
        case('%s-with-MAST-PREV' % k, 0 if k == 'MDFC' else 15, None, lambda m: None, kind=k, links=['MAST', 'PREV'])
        case('%s-with-MAST-LIST' % k, 15 if k == 'INST' else 0, None, lambda m: None, kind=k, links=['MAST', 'LIST'])
        case('%s-with-all-links' % k, 0 if k == 'MDFC' else 15, None, lambda m: None, kind=k, links=['MAST', 'PREV', 'LIST'])
        case('%s-with-DKRS' % k, 15, None, lambda m: m.set('TPRO', ':70E::TPRO//GSCC/TDSVSTIP/DKRSABCD'), kind=k)
        case('%s-with-GUPP-and-DKRS' % k, 15, None, lambda m: m.set('TPRO', ':70E::TPRO//GSCC/TDSVSTIP/GUPP0/DKRSABCD'), kind=k)
        for b in ('BUYI', 'SELL'):
            for p in ('BUYR', 'SELL'):
                case('%s-%s-contra-at-%s' % (k, b, p), 15, None, lambda m, p=p: m.after(p, ':20C::PROC//C1'), kind=k, buse=b)
    for b in ('BUYI', 'SELL'):
        o, own = ('SELL', 'BUYR') if b == 'BUYI' else ('BUYR', 'SELL')
        need = dict(kind='TDDK', buse=b)
        case('TDDK-%s-no-contra' % b, 14, None, lambda m, o=o: m.drop(o + '.REF'), **need)
        case('TDDK-%s-contra-at-own-side' % b, 14, None, lambda m, o=o, own=own: m.drop(o + '.REF') or m.after(own, ':20C::PROC//C1'), **need)
        case('TDDK-%s-contra-at-both' % b, 15, None, lambda m, own=own: m.after(own, ':20C::PROC//C1'), **need)
        case('TDDK-%s-no-DKRS' % b, 14, None, lambda m: m.set('TPRO', ':70E::TPRO//GSCC/TDSVSTIP'), **need)
        case('TDDK-%s-GUPP-no-DKRS' % b, 14, None, lambda m: m.set('TPRO', ':70E::TPRO//GSCC/TDSVSTIP/GUPP0'), **need)
        case('TDDK-%s-GUPP-and-DKRS' % b, 15, None, lambda m: m.set('TPRO', ':70E::TPRO//GSCC/TDSVSTIP/GUPP0/DKRSABCD'), **need)
        for q in ('MAST', 'PREV', 'LIST'):
            case('TDDK-%s-with-%s' % (b, q), 15, None, lambda m: None, links=[q], **need)
        case('TDDK-%s-BUSE-turned' % b, 14, None, lambda m, b=b: m.set('BUSE', ':22H::BUSE//' + ('SELL' if b == 'BUYI' else 'BUYI')), **need)
    for a in KINDS:
        for b in KINDS:
            if a != b:
                case('%s-called-%s' % (a, b), '?', '?', lambda m, b=b: m.set('PROC', ':22F::PROC/GSCC/' + b), kind=a)
    case('14-before-16', 14, None, lambda m: m.set('CONF', ':36B::CONF//FAMT/0,'), kind='INST', links=[])
    case('15-before-16', 15, None, lambda m: m.set('CONF', ':36B::CONF//FAMT/0,'), kind='INST', links=['MAST', 'LIST'])
    case('16-before-17', 16, None, lambda m: m.set('CONF', ':36B::CONF//FAMT/0,') or m.set('SETT', ':98A::SETT//20240228') or m.set('TRAD', ':98C::TRAD//20240229000000'))
    # --- 17
    for t, s, want in (('20240229', '20240229', 0), ('20240229', '20240228', 17), ('20240301', '20240229', 17), ('20240101', '20231231', 17), ('20231231', '20240101', 0), ('20240229', '20230313', 17),
                       ('20240131', '20240201', 0), ('20240201', '20240131', 17), ('99991231', '99991231', 0), ('99991231', '99991230', 17), ('00010101', '00010101', 0), ('00010102', '00010101', 17), ('20241101', '20240930', 17), ('10000101', '09991231', 17)):
        for c in ('000000', '235959'):
            case('settle-%s-trade-%s-%s' % (s, t, c), want, None, lambda m, t=t, s=s, c=c: m.set('TRAD', ':98C::TRAD//' + t + c) or m.set('SETT', ':98A::SETT//' + s))
    case('prepared-after-all', 0, None, lambda m: m.set('PREP', ':98C::PREP//99991231235959'), prep=True)
    case('codes-with-noughts', 0, None, lambda m: m.set('BUYR', ':95R::BUYR/GSCC/PART0000') or m.set('SELL', ':95R::SELL/GSCC/PART0000') or m.set('CUSIP', ':35B:/US/000000000'))


# helpers of the cases

def filled(m, size):
    """Good header, then lines of an unknown tag up to exactly so many bytes, then the last line."""
    head = b'\nA\n515/000/GSCC\nMBSCTRRS\n'
    room = size - len(head) - 2
    body = b''
    while room - len(body) > 200:
        body += b':99Z:' + b'X' * 94 + b'\n'
    body += b':99Z:' + b'X' * (room - len(body) - 6) + b'\n'
    return head + body + b'-\n'


def crlf_or_not(m, label):
    """The message, in which a CR at the very end of its line is followed by CR LF and so stands alone."""
    i = m.at(label)
    ends = m.rng.choice(['lf', 'crlf', 'mixed'])
    lines = [l for _, l in m.lines]
    if lines[i].endswith('\r'):
        ends = 'crlf'
    return join(lines, m.rng, ends)


def relabel(block):
    block = [list(x) for x in block]
    for x, l in zip(block, ['first', 'second', 'third', 'fourth', 'fifth'] + ['more'] * 60):
        x[0] = l
    return block


def both(m, p):
    """Both parties of one side: 8 at the second 95R."""
    q = 'SELL' if p == 'BUYR' else 'BUYR'
    m.set(q, m.get(p))
    last = max(m.at('BUYR'), m.at('SELL'))
    m.lines[last][0] = 'again'


def other(m):
    return 'SELL' if m.buse == 'BUYI' else 'BUYR'


def move(m, label, before):
    x = m.lines.pop(m.at(label))
    m.lines.insert(m.at(before), x)


def exchange_blocks(m):
    i, j, k = m.at('GENL'), m.at('CONFDET'), m.at('END')
    m.lines[i:k] = m.lines[j:k] + m.lines[i:j]


# ---------------------------------------------------------------- kinds of message in the stream

def accepted(rng):
    wide = rng.random() < 0.15
    m = Msg(rng, wide=wide, **({} if not wide else dict(prep=True, pool=True, tdid=True, gupp=True)))
    return 'good-%s%s,want=0@0' % (m.kind, '-wide' if wide else ''), m.bytes()


def near_miss(rng, chosen):
    name, want, where, edit, need = chosen
    m = Msg(rng, **need)
    raw = edit(m)
    if not isinstance(raw, bytes):
        raw = m.bytes()
    if want == '?':
        return name, raw
    if where == '?':
        return '%s,want=%d' % (name, want), raw
    line = 0 if where is None else where if isinstance(where, int) else m.at(where) + 1
    return '%s,want=%d@%d' % (name, want, line), raw


def two_misses(rng):
    """Two near misses that replace values in one message: which number comes first?"""
    while True:
        a, b = rng.sample(CASES, 2)
        try:
            need = dict(a[4], **b[4])
            m = Msg(rng, **need)
            if isinstance(a[3](m), bytes) or isinstance(b[3](m), bytes):
                continue
            return 'two:%s+%s' % (a[0], b[0]), m.bytes()
        except StopIteration:
            continue


def damaged(rng):
    m = Msg(rng)
    lines = [l for _, l in m.lines]
    done = []
    raw = None
    for _ in range(rng.choice([1, 1, 1, 2, 3])):
        how = rng.choice(['delete', 'double', 'exchange', 'neighbours', 'move', 'byte', 'byte', 'insert', 'lose', 'repeat-elsewhere'])
        i, j = rng.randrange(len(lines)), rng.randrange(len(lines))
        l = lines[i]
        if how == 'delete' and len(lines) > 1:
            del lines[i]
        elif how == 'double':
            lines.insert(i, l)
        elif how == 'exchange':
            lines[i], lines[j] = lines[j], lines[i]
        elif how == 'neighbours':
            j = max(0, i - 1)
            lines[i], lines[j] = lines[j], lines[i]
        elif how == 'move':
            del lines[i]
            lines.insert(j, l)
        elif how == 'repeat-elsewhere':
            lines.insert(j, l)
        elif l:
            k = rng.randrange(len(l))
            b = rng.choice([rng.choice(C + ':/,-'), rng.choice(C + ':/,-'), chr(rng.randrange(0x20, 0x7F)), rng.choice('09,'), rng.choice('09,')]
                           + [chr(rng.choice([0, 9, 13, 0x1F, 0x7F, 0x80, 0xFF]))] * (rng.random() < 0.2))
            lines[i] = l[:k] + b + l[k + 1:] if how == 'byte' else l[:k] + b + l[k:] if how == 'insert' else l[:k] + l[k + 1:]
            done.append('%s-%d.%d' % (how, i + 1, k + 1))
            continue
        done.append('%s-%d%s' % (how, i + 1, '-%d' % (j + 1) if how in ('exchange', 'neighbours', 'move', 'repeat-elsewhere') else ''))
    return 'damage:%s:%s' % (m.kind, '+'.join(done)), join(lines, rng)


def without_last_LF(rng):
    """Only as the last message of a file."""
    m = Msg(rng)
    raw = m.bytes(rng.choice(['lf', 'crlf']))
    last = len(m.lines)
    how = rng.randrange(5)
    if how == 0:
        return 'no-LF-at-the-end,want=3@%d' % last, m.bytes('lf')[:-1]
    if how == 1:
        return 'CR-at-the-end,want=2@%d' % last, m.bytes('crlf')[:-1]
    if how == 2:
        return 'X-without-LF-behind,want=3@%d' % last, raw + b'X'
    if how == 3:
        return 'hyphen-without-LF-behind,want=3@%d' % last, raw + b'-'
    return 'CR-behind,want=2@%d' % (last + 1), raw + b'\r'


def stream(seed):
    rng = random.Random(seed)
    deck = []
    while True:
        which = rng.random()
        if which < 0.50:
            if not deck:
                deck = CASES[:]
                rng.shuffle(deck)
            name, raw = near_miss(rng, deck.pop())
        elif which < 0.65:
            name, raw = accepted(rng)
        elif which < 0.75:
            name, raw = two_misses(rng)
        else:
            name, raw = damaged(rng)
        if raw and not raw.endswith(b'\n'):
            continue
        if raw.startswith(b'# ') or b'\n# ' in raw:
            continue
        yield name, raw


def files(seed, count):
    """Lists of chunks, each list at most LIMIT bytes long together."""
    rng = random.Random('%s-last' % seed)
    number, size, chunks = 0, 0, []

    def chunk(name, raw):
        name = '%s-%05d-%s' % (seed, number, name)
        assert not any(x <= ' ' or x > '~' for x in name), name
        return b'# ' + name.encode('ascii') + b'\n' + raw

    for name, raw in stream(seed):
        if number >= count - 1:
            break
        last = without_last_LF(rng)
        if size + len(chunk(name, raw)) + 1000 > LIMIT:
            number += 1
            chunks.append(chunk(*last))
            yield chunks
            size, chunks = 0, []
            if number >= count:
                return
        number += 1
        chunks.append(chunk(name, raw))
        size += len(chunks[-1])
    number += 1
    chunks.append(chunk(*without_last_LF(rng)))
    yield chunks


def main():
    if len(sys.argv) not in (3, 4):
        sys.exit(__doc__)
    seed, count = int(sys.argv[1]), int(sys.argv[2])
    build_cases()
    for n, chunks in enumerate(files(seed, count)):
        out = b''.join(chunks)
        assert len(out) <= LIMIT
        if len(sys.argv) == 3:
            sys.stdout.buffer.write(out)
            return
        with open(os.path.join(sys.argv[3], 'seed%d-%03d.txt' % (seed, n)), 'wb') as f:
            f.write(out)


if __name__ == '__main__':
    main()

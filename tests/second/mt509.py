#!/usr/bin/env python3
"""mt509.py [R] - the worked cases of request A3, section 12, more by the words of its sections 2 to 6, and the widest messages of
its section 9.

Each message stands under a line `# name`, as make.py writes them, with LF, once more with CR LF and once more with either by turns,
and the name ends in the answer that the page wants: `,want=NUMBER@LINE`. With the word R: R alone, with LF and without a name.
"""
import sys

R = """
MBSCTRRS
509/000/GSCC
0017
:16R:GENL
:20C::SEME//RTTM0005
:23G:INST
:98C::PREP//20240229093001
:16R:LINK
:20C::RELA//0008
:16S:LINK
:16R:LINK
:20C::MAST//0017
:16S:LINK
:16R:LINK
:20C::LIST//000001-1306
:16S:LINK
:16R:STAT
:25D::IPRC//REJT
:16R:REAS
:24B::REJT/GSCC/E001
:70D::REAS//GSCC/MDRJ
:16S:REAS
:16R:REAS
:24B::REJT/GSCC/E016
:16S:REAS
:16S:STAT
:16S:GENL
-""".split('\n')
assert len(R) == 29

STATUSES = """
IPRC//PACK IPRC//REJT IPRC/GSCC/MODA IPRC/GSCC/MODP IPRC/GSCC/PAMS IPRC/GSCC/YPPR IPRC/GSCC/PADK IPRC/GSCC/DPPR IPRC/GSCC/DELE
IPRC/GSCC/DEPS IPRC/GSCC/DESA IPRC/GSCC/TUNB IPRC/GSCC/TBAL IPRC/GSCC/DNAL CPRC//PACK CPRC//REJT CPRC//CAND CPRC/GSCC/PACS
CPRC/GSCC/XPPR CPRC/GSCC/UPBP CPRC/GSCC/UPBR CPRC/GSCC/UPBC CPRC/GSCC/VPBP CPRC/GSCC/VPBR CPRC/GSCC/VPBC CPRC/GSCC/CDNA
MTCH//MACH MTCH/GSCC/MAPL MTCH/GSCC/MAPS MTCH/GSCC/MAFM""".split()
assert len(STATUSES) == 30


# A change is a table from a line number of R to the lines that stand there instead.

def line(n, *lines):
    return {n: list(lines)}


def after(n, *lines):
    return {n: [R[n - 1], *lines]}


def without(first, last=None):
    return {n: [] for n in range(first, (last or first) + 1)}


def all_of(*changes):
    """Later ones go over earlier ones."""
    made = {}
    for change in changes:
        made.update(change)
    return made


def status(word):
    return line(19, ':25D::' + word)


def function(word):
    return line(7, ':23G:' + word)


def prep(digits):
    return line(8, ':98C::PREP//' + digits)


def code(text):
    return line(21, ':24B::REJT' + text)


def text(what):
    return line(22, ':70D::REAS' + what)


def link(qualifier, reference):
    return [':16R:LINK', ':20C::%s//%s' % (qualifier, reference), ':16S:LINK']


def reas(word='E001', *more):
    return [':16R:REAS', ':24B::REJT/GSCC/' + word, *more, ':16S:REAS']


def reasons(count):
    """So many REAS more behind line 26."""
    return after(26, *[text for n in range(count) for text in reas('E%03d' % n)])


NO_LINK = without(9, 17)
NO_REAS = without(20, 26)
THIRTY_FIVE = 'Reason, of 35: a-z {~} and so it end'[:35]
assert len(THIRTY_FIVE) == 35

# The table of section 12, row by row.
WORKED = [
    ('R', 0, 0, {}),
    ('second-line-GSCCTRRS', 4, 2, line(2, 'GSCCTRRS')),
    ('third-line-515', 4, 3, line(3, '515/000/GSCC')),
    ('receiver-of-9', 4, 4, line(4, 'ABCDEFGHI')),
    ('second-RELA', 8, 19, after(17, *link('RELA', '0008'))),
    ('INDX', 8, 10, line(10, ':20C::INDX//1')),
    ('no-LINK', 0, 0, NO_LINK),
    ('LINK-behind-STAT', 8, 25, all_of(without(9, 11), after(27, *R[8:11]))),
    ('no-STAT', 9, 18, without(18, 27)),
    ('no-25D', 9, 19, without(19)),
    ('25D-XPRC', 8, 19, status('XPRC//REJT')),
    ('25D-XPRC-and-no-date', 8, 19, all_of(status('XPRC//REJT'), prep('X'))),
    ('25D-REJX', 10, 19, status('IPRC//REJX')),
    ('25D-two-slashes', 10, 19, all_of(status('IPRC//GSCC/MODA'), NO_REAS)),
    ('25D-MTCH//PACK', 10, 19, status('MTCH//PACK')),
    ('25D-twice', 8, 20, after(19, R[18])),
    ('STAT-twice', 8, 28, after(27, R[17], R[18], R[26])),
    ('ten-REAS', 0, 0, reasons(8)),
    ('eleven-REAS', 22, 51, reasons(9)),
    ('eleven-REAS-and-24B-of-3', 22, 51, all_of(reasons(9), code('/GSCC/E01'))),
    ('eleven-REAS-and-no-24B', 9, 25, all_of(reasons(9), without(25))),
    ('REAS-behind-STAT', 8, 25, all_of(without(24, 26), after(27, *R[23:26]))),
    ('21-and-22-exchanged', 9, 21, all_of(line(21, R[21]), line(22, R[20]))),
    ('no-24B', 9, 21, without(21)),
    ('70D-twice', 8, 23, after(22, R[21])),
    ('24B-two-slashes', 10, 21, code('//E001')),
    ('24B-ZZZ9', 0, 0, code('/GSCC/ZZZ9')),
    ('70D-DKRJ', 0, 0, text('//DKRJ')),
    ('70D-of-35', 0, 0, text('//' + THIRTY_FIVE)),
    ('70D-of-36', 10, 22, text('//' + THIRTY_FIVE + 's')),
    ('70D-empty', 10, 22, text('//')),
    ('MAST-hyphen', 10, 13, line(13, ':20C::MAST//00-17')),
    ('LIST-one-hyphen', 0, 0, line(16, ':20C::LIST//-')),
    ('CAST', 13, 0, function('CAST')),
    ('CAST-CPRC-REJT', 0, 0, all_of(function('CAST'), status('CPRC//REJT'))),
    ('COPY-CPRC-REJT', 15, 0, all_of(function('CAST/COPY'), status('CPRC//REJT'))),
    ('COPY-CPRC-CAND', 0, 0, all_of(function('CAST/COPY'), status('CPRC//CAND'), NO_REAS)),
    ('COPY', 13, 0, function('CAST/COPY')),
    ('no-REAS', 14, 0, NO_REAS),
    ('PACK', 15, 0, status('IPRC//PACK')),
    ('PACK-no-REAS', 0, 0, all_of(status('IPRC//PACK'), NO_REAS)),
    ('no-PREP', 0, 0, without(8)),
    ('PREP-no-day', 12, 8, prep('20240230093001')),
    ('GENL-gone', 9, 5, without(5, 28)),
]
assert len(WORKED) == 44

# Section 1.
HEADER = [
    ('password-of-12', 0, 0, line(1, 'ABCDEFGHIJKL')),
    ('password-of-13', 4, 1, line(1, 'ABCDEFGHIJKLM')),
    ('password-lower', 4, 1, line(1, 'a')),
    ('password-hyphen', 4, 1, line(1, 'A-')),
    ('receiver-of-8', 0, 0, line(4, 'ABCDEFGH')),
    ('receiver-blank', 4, 4, line(4, '')),
    ('receiver-padded', 4, 4, line(4, '0017 ')),
    ('second-and-fourth-exchanged', 4, 2, all_of(line(2, '0017'), line(4, 'MBSCTRRS'))),
    ('third-line-518', 4, 3, line(3, '518/000/GSCC')),
    ('third-line-DTCY', 4, 3, line(3, '509/000/DTCY')),
    ('no-header-line-4', 4, 4, without(4)),
    ('two-header-lines-wrong', 4, 2, all_of(line(2, 'X'), line(4, ''))),
]

# Sections 2 and 3: slots in order, keys, what comes twice, what was passed over, and 22.
LAYOUT = [
    ('22F', 8, 9, after(8, ':22F::TRTR/GSCC/CASH')),
    ('PREP-behind-LINK', 8, 17, all_of(without(8), after(17, R[7]))),
    ('PREP-twice', 8, 9, after(8, R[7])),
    ('SEME-and-23G-exchanged', 9, 6, all_of(line(6, R[6]), line(7, R[5]))),
    ('no-SEME', 9, 6, without(6)),
    ('no-23G', 9, 7, without(7)),
    ('23G-twice', 8, 8, after(7, R[6])),
    ('GENL-twice', 8, 29, after(28, *R[4:28])),
    ('GENL-empty', 9, 6, without(6, 27)),
    ('LINK-empty', 9, 10, without(10)),
    ('LINK-two-lines', 8, 11, after(10, ':20C::BASK//1')),
    ('LINK-in-LINK', 8, 10, line(10, *link('BASK', '1'), R[9])),
    ('LINK-PROC', 8, 10, line(10, ':20C::PROC//1')),
    ('LINK-SEME', 8, 10, line(10, ':20C::SEME//1')),
    ('LINK-13B', 8, 10, line(10, ':13B::LINK//515')),
    ('LINK-lower', 8, 10, line(10, ':20C::rela//1')),
    ('LINK-cut', 8, 10, line(10, ':20C::REL')),
    ('LINK-MAST-twice-and-no-value', 8, 13, all_of(line(10, ':20C::MAST//1'), line(13, ':20C::MAST'))),
    ('LINK-before-PREP', 8, 11, {8: [*link('BASK', '1'), R[7]]}),
    ('LINK-before-23G', 9, 7, {7: [*link('BASK', '1'), R[6]]}),
    ('LINK-in-STAT', 8, 20, after(19, *link('BASK', '1'))),
    ('STAT-before-LINK', 8, 19, all_of(line(8, R[7], *R[17:27]), without(18, 27))),
    ('STAT-empty', 9, 19, without(19, 26)),
    ('25D-behind-REAS', 9, 19, all_of(without(19), after(26, R[18]))),
    ('25D-outside-STAT', 8, 18, all_of(line(18, R[18], R[17]), without(19))),
    ('25D-lower', 8, 19, status('iprc//REJT')),
    ('25D-cut', 8, 19, status('IPR')),
    ('25D-one-colon', 8, 19, line(19, ':25D:IPRC//REJT')),
    ('25D-of-two-qualifiers', 8, 20, after(19, ':25D::CPRC//REJT')),
    ('25D-MTCH-second', 8, 20, after(19, ':25D::MTCH//MACH')),
    ('REAS-empty', 9, 25, without(25)),
    ('REAS-70D-alone', 9, 25, line(25, ':70D::REAS//X')),
    ('REAS-24B-twice', 8, 22, after(21, R[20])),
    ('REAS-24B-behind-70D', 8, 23, after(22, R[20])),
    ('REAS-24B-RJCT', 8, 21, line(21, ':24B::RJCT/GSCC/E001')),
    ('REAS-70D-NARR', 8, 22, line(22, ':70D::NARR//X')),
    ('REAS-70E', 8, 22, line(22, ':70E::REAS//X')),
    ('REAS-in-REAS', 8, 22, after(21, *reas())),
    ('REAS-in-GENL', 8, 18, {18: [*reas(), R[17]]}),
    ('REAS-before-25D', 9, 19, {19: [*reas(), R[18]]}),
    ('REAS-behind-GENL', 8, 29, after(28, *reas())),
    ('24B-in-STAT', 8, 20, after(19, R[20])),
    ('70D-in-STAT', 8, 27, after(26, R[21])),
    ('unknown-block', 8, 27, after(26, ':16R:XXXX', ':16S:XXXX')),
    ('twelve-REAS', 22, 51, reasons(10)),
    ('eleven-REAS-with-70D', 22, 60, all_of(without(24, 26), after(23, *reas('E002', ':70D::REAS//A') * 10))),
    ('eleven-REAS-the-last-empty', 22, 51, after(26, *reas() * 8, ':16R:REAS', ':16S:REAS')),
    ('eleven-REAS-the-tenth-empty', 9, 49, after(26, *reas() * 7, ':16R:REAS', ':16S:REAS', *reas())),
    ('eleven-REAS-and-8-before', 8, 10, all_of(reasons(9), line(10, ':20C::INDX//1'))),
    ('eleven-REAS-and-8-behind', 22, 51, all_of(reasons(9), line(27, ':16S:STAT', *link('BASK', '1')))),
    ('eleven-REAS-and-9-before', 9, 7, all_of(reasons(9), without(7))),
    ('eleven-REAS-and-no-day', 22, 51, all_of(reasons(9), prep('20240230093001'))),
    ('eleven-REAS-and-PACK', 22, 51, all_of(reasons(9), status('IPRC//PACK'))),
    ('eleven-REAS-and-CAST', 22, 51, all_of(reasons(9), function('CAST'))),
    ('eleven-REAS-and-bad-shape', 5, 54, all_of(reasons(9), line(27, 'X', R[26]))),
    ('eleven-REAS-and-header', 4, 2, all_of(reasons(9), line(2, 'X'))),
    ('eleven-REAS-one-left-open', 6, 53, after(26, *reas() * 8, ':16R:REAS', R[24])),
    ('ten-REAS-one-more-behind-STAT', 8, 52, all_of(reasons(8), line(27, R[26], *reas()))),
    ('ten-REAS-one-more-in-GENL', 8, 18, all_of(reasons(8), {18: [*reas(), R[17]]})),
    ('ten-REAS-one-more-in-the-last', 8, 50, after(26, *reas() * 7, *reas('E001', *reas()))),
    ('ten-REAS-and-16R-REAS-with-a-blank', 5, 51, after(26, *reas() * 8, ':16R:REAS ', ':16S:REAS ')),
    ('ten-REAS-and-REAS1', 8, 51, after(26, *reas() * 8, ':16R:REAS1', ':16S:REAS1')),
    ('ten-REAS-with-70D', 0, 0, all_of(without(20, 25), line(26, *reas('E002', ':70D::REAS//' + THIRTY_FIVE) * 10))),
]

# Sections 2 and 4: values.
VALUES = [
    ('SEME-of-16', 0, 0, line(6, ':20C::SEME//ABCDEFGHIJKLMNOP')),
    ('SEME-of-17', 10, 6, line(6, ':20C::SEME//ABCDEFGHIJKLMNOPQ')),
    ('SEME-hyphen', 10, 6, line(6, ':20C::SEME//RTTM-1')),
    ('SEME-one-slash', 10, 6, line(6, ':20C::SEME/1')),
    ('23G-INST/COPY', 10, 7, function('INST/COPY')),
    ('23G-CAST/', 10, 7, function('CAST/')),
    ('23G-CAST/COPYY', 10, 7, function('CAST/COPYY')),
    ('23G-COPY', 10, 7, function('COPY')),
    ('23G-NEWM', 10, 7, function('NEWM')),
    ('23G-blank-behind', 10, 7, function('INST ')),
    ('23G-qualifier', 10, 7, function(':INST')),
    ('PREP-one-slash', 10, 8, line(8, ':98C::PREP/20240229093001')),
    ('PREP-empty', 12, 8, prep('')),
    ('PREP-of-8', 12, 8, prep('20240229')),
    ('PREP-hour-24', 12, 8, prep('20240229240000')),
    ('PREP-23:59:59', 0, 0, prep('99991231235959')),
    ('PREP-year-0', 12, 8, prep('00000101000000')),
    ('PREP-and-SEME', 10, 6, all_of(prep(''), line(6, ':20C::SEME//'))),
    ('PREP-and-RELA', 12, 8, all_of(prep(''), line(10, ':20C::RELA//'))),
    ('25D-empty', 10, 19, status('IPRC')),
    ('25D-PACK-of-GSCC', 10, 19, status('IPRC/GSCC/PACK')),
    ('25D-MODA-without-GSCC', 10, 19, status('IPRC//MODA')),
    ('25D-CAND-of-IPRC', 10, 19, status('IPRC//CAND')),
    ('25D-TBAL-of-CPRC', 10, 19, status('CPRC/GSCC/TBAL')),
    ('25D-DTCY', 10, 19, status('IPRC/DTCY/MODA')),
    ('25D-WAFL', 10, 19, all_of(status('MTCH/GSCC/WAFL'), NO_REAS)),    # 000:1227 has it once, beside MAPL; the page has not
    ('25D-blank-behind', 10, 19, status('IPRC//REJT ')),
    ('25D-lower-word', 10, 19, status('IPRC//rejt')),
    ('25D-IPRCX', 10, 19, status('IPRCX//REJT')),
    ('24B-of-3', 10, 21, code('/GSCC/E01')),
    ('24B-of-5', 10, 21, code('/GSCC/E0011')),
    ('24B-lower', 10, 21, code('/GSCC/e001')),
    ('24B-hyphen', 10, 21, code('/GSCC/E-01')),
    ('24B-empty', 10, 21, code('')),
    ('24B-DTCY', 10, 21, code('/DTCY/E001')),
    ('24B-of-second-REAS', 10, 25, line(25, ':24B::REJT/GSCC/E16')),
    ('70D-one-slash', 10, 22, text('/GSCC/MDRJ')),
    ('70D-no-slash', 10, 22, text('')),
    ('70D-blank', 0, 0, text('// ')),
    ('70D-a-hyphen', 0, 0, text('//-')),
    ('70D-slashes', 0, 0, text('////')),
    ('70D-tilde', 0, 0, text('//~ ~')),
    ('70D-like-a-line', 0, 0, text('//:16R:REAS')),
    ('70D-of-second-REAS', 0, 0, after(25, ':70D::REAS//CSRJ')),
    ('70D-of-second-REAS-alone', 0, 0, all_of(without(22), after(25, ':70D::REAS//CSRJ'))),
    ('70D-DEL', 2, 22, text('//\x7f')),
    ('70D-tab', 2, 22, text('//A\tB')),
    ('10-before-13', 10, 21, all_of(code('/GSCC/E01'), function('CAST'))),
    ('13-before-14', 13, 0, all_of(function('CAST'), NO_REAS)),
    ('13-before-15', 13, 0, all_of(function('CAST'), status('IPRC//PACK'))),
    ('14-before-15', 14, 0, all_of(function('CAST/COPY'), status('CPRC//REJT'), NO_REAS)),
    ('COPY-CAND-and-REAS', 15, 0, all_of(function('CAST/COPY'), status('CPRC//CAND'))),
    ('COPY-MTCH', 13, 0, all_of(function('CAST/COPY'), status('MTCH//MACH'), NO_REAS)),
    ('INST-CPRC', 13, 0, status('CPRC//REJT')),
    ('INST-CDNA', 13, 0, all_of(status('CPRC/GSCC/CDNA'), NO_REAS)),
]


def is_reject(word):
    return word.endswith('//REJT')


def by_status(word):
    """Of one status: what it should be; with the wrong function; with or without reasons, as it should not be; as a copy."""
    right, wrong = ('CAST', 'INST') if word.startswith('CPRC') else ('INST', 'CAST')
    keep, other = ({}, NO_REAS) if is_reject(word) else (NO_REAS, {})
    copied = 13 if right == 'INST' else 0 if word == 'CPRC//CAND' else 15
    name = word.replace('/', '-')
    return [
        ('status-%s' % name, 0, 0, all_of(status(word), function(right), keep)),
        ('status-%s-%s' % (name, wrong), 13, 0, all_of(status(word), function(wrong), keep)),
        ('status-%s-reasons' % name, 14 if is_reject(word) else 15, 0, all_of(status(word), function(right), other)),
        ('status-%s-copy' % name, copied, 0, all_of(status(word), function('CAST/COPY'), keep)),
    ]


def by_link(qualifier, hyphens):
    """Of one LINK, in place of R's three: alone, at its edges, with a hyphen, and twice."""
    def only(reference):
        return all_of(NO_LINK, after(8, *link(qualifier, reference)))
    return [
        ('link-%s' % qualifier, 0, 0, only('0')),
        ('link-%s-of-16' % qualifier, 0, 0, only('ABCDEFGHIJKLMNOP')),
        ('link-%s-of-17' % qualifier, 10, 10, only('ABCDEFGHIJKLMNOPQ')),
        ('link-%s-empty' % qualifier, 10, 10, only('')),
        ('link-%s-lower' % qualifier, 10, 10, only('a')),
        ('link-%s-blank' % qualifier, 10, 10, only('0 1')),
        ('link-%s-slash' % qualifier, 10, 10, only('0/1')),
        ('link-%s-hyphen' % qualifier, 0 if hyphens else 10, 0 if hyphens else 10, only('000001-1306')),
        ('link-%s-hyphens' % qualifier, 0 if hyphens else 10, 0 if hyphens else 10, only('-' * 16)),
        ('link-%s-one-slash' % qualifier, 10, 10, all_of(NO_LINK, after(8, R[8], ':20C::%s/1' % qualifier, R[10]))),
        ('link-%s-twice' % qualifier, 8, 13, all_of(NO_LINK, after(8, *link(qualifier, '1') * 2))),
    ]


LINKS = ['MAST', 'PREV', 'RELA', 'LIST', 'BASK', 'PROG', 'COMM']


def links_in_order(first, step):
    names = [LINKS[(first + n * step) % 7] for n in range(7)]
    return all_of(NO_LINK, after(8, *[text for q in names for text in link(q, 'REF' + q)]))


ORDERS = [('links-%d-%d' % (first, step), 0, 0, links_in_order(first, step)) for first in range(7) for step in (1, 3, 6)]


def widest(word, right):
    change = all_of(
        line(1, 'ABCDEFGHIJKL'), line(4, 'ABCDEFGH'), line(6, ':20C::SEME//ABCDEFGHIJKLMNOP'), function(right), NO_LINK, NO_REAS,
        after(8, *[text for q in reversed(LINKS) for text in link(q, 'ABCDEFGHIJKLMNOP')]), status(word))
    if is_reject(word):
        change = all_of(change, line(26, *reas('E001', ':70D::REAS//' + THIRTY_FIVE) * 10))
    return change


WIDEST = [('widest-%s-of-%d' % (name, length), 0, 0, widest(word, right)) for name, length, word, right in (
    ('IPRC_REJT', 1476, 'IPRC//REJT', 'INST'), ('CPRC_REJT', 1476, 'CPRC//REJT', 'CAST'), ('CAND_COPY', 551, 'CPRC//CAND', 'CAST/COPY'),
    ('CAND', 546, 'CPRC//CAND', 'CAST'), ('MODA', 550, 'IPRC/GSCC/MODA', 'INST'), ('MAFM', 550, 'MTCH/GSCC/MAFM', 'INST'))]

MORE = (HEADER + LAYOUT + VALUES + [case for word in STATUSES for case in by_status(word)]
        + [case for q in LINKS for case in by_link(q, q not in ('MAST', 'RELA'))] + ORDERS + WIDEST)


def message(change):
    return [text for n in range(1, 30) for text in change.get(n, [R[n - 1]])]


ENDINGS = {'LF': lambda n: '\n', 'CRLF': lambda n: '\r\n', 'mixed': lambda n: '\r\n' if n % 3 == 1 else '\n'}


def main():
    if sys.argv[1:] == ['R']:
        sys.stdout.write('\n'.join(R) + '\n')
        return
    if len(sys.argv) > 1:
        sys.exit(__doc__)
    for name_of_it, ending in ENDINGS.items():
        for name, number, at, change in WORKED + MORE:
            head = '# %s-%s,want=%d@%d\n' % (name, name_of_it, number, at)
            body = ''.join(text + ending(n) for n, text in enumerate(message(change)))
            sys.stdout.buffer.write((head + body).encode('ascii'))


if __name__ == '__main__':
    main()

#!/usr/bin/env python3
"""pool.py [P] - the worked cases of request A1, section 10, some more of its section 3, and the widest messages of its section 8.

Each message stands under a line `# name`, as make.py writes them, with LF and once more with CR LF, and the name ends in the
answer that the page wants: `,want=NUMBER@LINE`. With the word P: P alone, with LF and without a name.
"""
import sys

P = """
0017
515/000/DTCY
MBSCPNET
:16R:GENL
:20C::SEME//0008
:23G:NEWM
:22F::TRTR/DTCY/CASH
:16R:LINK
:20C::MAST//0017
:16S:LINK
:16S:GENL
:16R:CONFDET
:98C::TRAD//20240229000000
:98A::SETT//20240313
:90A::DEAL//PRCT/99,50
:19A::SETT//USD0,00
:22H::BUSE//BUYI
:22F::PROC/DTCY/INST
:22H::PAYM//APMT
:16R:CONFPRTY
:95R::SELL/DTCY/PART0015
:16S:CONFPRTY
:16R:CONFPRTY
:95R::BUYR/DTCY/PART0017
:16S:CONFPRTY
:36B::CONF//FAMT/0001000000,
:35B:/US/01F070633
:16R:FIA
:13B::POOL/DTCY/123456
:16S:FIA
:70E::TPRO//DTCY/TDSVPOOL/CDRY/DDTE20240313
:16S:CONFDET
-""".split('\n')
assert len(P) == 34


# A change is a table from a line number of P to the lines that stand there instead.

def line(n, *lines):
    return {n: list(lines)}


def after(n, *lines):
    return {n: [P[n - 1], *lines]}


def without(first, last=None):
    return {n: [] for n in range(first, (last or first) + 1)}


def money(value):
    return line(17, ':19A::SETT//' + value)


def narrative(value):
    return line(32, ':70E::TPRO//DTCY/' + value)


def kind(word):
    return line(19, ':22F::PROC/DTCY/' + word)


def link(qualifier, reference):
    """A LINK block after line 11."""
    return after(11, ':16R:LINK', ':20C::%s//%s' % (qualifier, reference), ':16S:LINK')


def all_of(*changes):
    """Later ones go over earlier ones."""
    made = {}
    for change in changes:
        made.update(change)
    return made


LINK = {n: [P[n - 1]] for n in range(9, 12)}
TDDK = all_of(kind('TDDK'), without(9, 11), after(22, ':20C::PROC//1'), narrative('TDSVPOOL/DDTE20240313/DKRSE004'))
CDRQ = all_of(kind('CDRQ'), narrative('TDSVPOOL'))

# The table of section 10, row by row; B of document 01 is in check.sh.
WORKED = [
    ('P', 0, 0, {}),
    ('third-line-GSCC', 4, 3, line(3, '515/000/GSCC')),
    ('fourth-line-MBSCTRRS', 4, 4, line(4, 'MBSCTRRS')),
    ('PREP', 8, 8, after(7, ':98C::PREP//20240229093000')),
    ('PACO', 8, 23, after(22, ':70C::PACO//DTCY/TDIDA')),
    ('TRTR-GSCC', 10, 8, line(8, ':22F::TRTR/GSCC/CASH')),
    ('no-19A', 0, 0, without(17)),
    ('19A-USD0,', 0, 0, money('USD0,')),
    ('19A-USD0012,500', 0, 0, money('USD0012,500')),
    ('19A-USD', 11, 17, money('USD')),
    ('19A-USD1', 11, 17, money('USD1')),
    ('19A-USDN1,', 11, 17, money('USDN1,')),
    ('19A-NUSD1,', 10, 17, money('NUSD1,')),
    ('19A-EUR1,', 10, 17, money('EUR1,')),
    ('19A-twice', 8, 18, after(17, P[16])),
    ('16-and-17-exchanged', 9, 16, all_of(line(16, P[16]), line(17, P[15]))),
    ('19A-after-18', 8, 18, all_of(without(17), after(18, P[16]))),
    ('19A-LOCO', 8, 17, line(17, ':19A::LOCO//USD1,')),
    ('no-FIA', 0, 0, without(29, 31)),
    ('FIA-empty', 9, 30, without(30)),
    ('no-70E', 9, 32, without(32)),
    ('70E-TDSVPOOL', 0, 0, narrative('TDSVPOOL')),
    ('70E-SBOD', 10, 32, narrative('TDSVSBOD')),
    ('70E-GUPP', 10, 32, narrative('TDSVPOOL/GUPP0')),
    ('70E-CDRY-last', 10, 32, narrative('TDSVPOOL/DDTE20240313/CDRY')),
    ('70E-CDRYY', 10, 32, narrative('TDSVPOOL/CDRYY')),
    ('70E-no-day', 12, 32, narrative('TDSVPOOL/DDTE20230229')),
    ('70E-DDTE-empty', 12, 32, narrative('TDSVPOOL/DDTE')),
    ('70E-DDTE-of-9', 12, 32, narrative('TDSVPOOL/DDTE202403131')),
    ('70E-DDTE-of-7', 12, 32, narrative('TDSVPOOL/DDTE2024031')),
    ('70E-10-before-12', 10, 32, narrative('TDSVPOOL/DDTE20230229/DKRSE00')),
    ('70E-DDTE-slash', 10, 32, narrative('TDSVPOOL/DDTE/20240313')),
    ('70E-no-day-and-par-0', 12, 32, all_of(narrative('TDSVPOOL/DDTE20230229'), line(27, ':36B::CONF//FAMT/0,'))),
    ('70E-DDTE-00010101', 0, 0, narrative('TDSVPOOL/DDTE00010101')),
    ('70E-DKRS-of-INST', 15, 0, narrative('TDSVPOOL/DKRSE004')),
    ('kind-CASE', 10, 19, kind('CASE')),
    ('kind-GSCC/INST', 10, 19, line(19, ':22F::PROC/GSCC/INST')),
    ('CDRQ', 0, 0, CDRQ),
    ('CDRL', 0, 0, all_of(kind('CDRL'), narrative('TDSVPOOL'))),
    ('CDRQ-with-CDRY', 0, 0, kind('CDRQ')),
    ('CDRQ-with-LIST', 0, 0, all_of(CDRQ, link('LIST', '1'))),
    ('CDRQ-with-PREV', 15, 0, all_of(CDRQ, link('PREV', '1'))),
    ('CDRQ-without-LINK', 14, 0, all_of(CDRQ, without(9, 11))),
    ('CDRQ-23G-CANC', 13, 0, all_of(CDRQ, line(7, ':23G:CANC'))),
    ('MDFC-with-CDRY', 0, 0, kind('MDFC')),
    ('INST-with-LIST', 15, 0, link('LIST', '1')),
    ('TDDK', 0, 0, TDDK),
    ('TDDK-with-MAST', 0, 0, all_of(TDDK, LINK, line(10, ':20C::MAST//NONREF'))),
    ('TDDK-with-PREV', 15, 0, all_of(TDDK, LINK, link('PREV', '1'))),
    ('TDDK-without-DKRS', 14, 0, all_of(TDDK, narrative('TDSVPOOL/DDTE20240313'))),
    ('TDDK-with-CDRY', 15, 0, all_of(TDDK, narrative('TDSVPOOL/CDRY/DDTE20240313/DKRSE004'))),
    ('CANC', 0, 0, all_of(kind('CANC'), line(7, ':23G:CANC'), link('PREV', 'NONREF'), narrative('TDSVPOOL'))),
    ('par-0', 16, 0, line(27, ':36B::CONF//FAMT/0,')),
    ('SETT-20240228', 17, 0, line(15, ':98A::SETT//20240228')),
]

# By the words of section 3: its shape, and its order of 10 and 12.
MORE = [
    ('70E-empty', 10, 32, line(32, ':70E::TPRO//DTCY')),
    ('70E-slash', 10, 32, narrative('')),
    ('70E-GSCC', 10, 32, line(32, ':70E::TPRO//GSCC/TDSVPOOL')),
    ('70E-POOLX', 10, 32, narrative('TDSVPOOLX')),
    ('70E-slash-last', 10, 32, narrative('TDSVPOOL/')),
    ('70E-slash-behind-the-date', 10, 32, narrative('TDSVPOOL/DDTE20240313/')),
    ('70E-CDRY-twice', 10, 32, narrative('TDSVPOOL/CDRY/CDRY')),
    ('70E-DDTE-twice', 10, 32, narrative('TDSVPOOL/DDTE20240313/DDTE20240313')),
    ('70E-DKRS-twice', 10, 32, narrative('TDSVPOOL/DKRSE004/DKRSE004')),
    ('70E-DKRS-first', 10, 32, narrative('TDSVPOOL/DKRSE004/DDTE20240313')),
    ('70E-DKRS-of-5', 10, 32, narrative('TDSVPOOL/DKRSE0044')),
    ('70E-DKRS-lower', 10, 32, narrative('TDSVPOOL/DKRSE00a')),
    ('70E-DDTE-empty-and-CDRY', 10, 32, narrative('TDSVPOOL/DDTE/CDRY')),
    ('70E-DDTE-empty-and-DKRS', 12, 32, narrative('TDSVPOOL/DDTE/DKRSE004')),
    ('70E-DDTE-letter', 12, 32, narrative('TDSVPOOL/DDTE2024031A')),
    ('70E-DDTE-blank-behind', 12, 32, narrative('TDSVPOOL/DDTE20240313 ')),
    ('70E-DDTE-CDRY', 12, 32, narrative('TDSVPOOL/DDTECDRY')),
    ('70E-DDTE-year-0', 12, 32, narrative('TDSVPOOL/CDRY/DDTE00000101')),
    ('70E-all-four', 15, 0, narrative('TDSVPOOL/CDRY/DDTE20240313/DKRSE004')),
    ('TDDK-no-day-and-no-contra', 12, 32, all_of(TDDK, LINK, line(22, P[21]), narrative('TDSVPOOL/DDTE20230229/DKRSE004'))),
    ('TDDK-without-DDTE', 0, 0, all_of(TDDK, narrative('TDSVPOOL/DKRSE004'))),
]


def message(change):
    return [text for n in range(1, 35) for text in change.get(n, [P[n - 1]])]


def widest(word):
    """Every field that the kind may have, as wide as it may be."""
    links = ['MAST'] + ['PREV'] * (word in ('CANC', 'MDFC')) + ['LIST'] * (word not in ('INST', 'TDDK'))
    change = all_of(
        line(1, 'ABCDEFGHIJKL'), line(2, 'ABCDEFGH'), line(6, ':20C::SEME//ABCDEFGHIJKLMNOP'),
        line(7, ':23G:' + ('CANC' if word == 'CANC' else 'NEWM')), without(9, 10),
        line(11, *[text for q in links for text in (':16R:LINK', ':20C::%s//ABCDEFGHIJKLMNOP' % q, ':16S:LINK')]),
        line(16, ':90A::DEAL//PRCT/99999999999999,'), money('USD1,1234567890123'), kind(word), line(27, ':36B::CONF//FAMT/1234567,1234567'),
        line(30, ':13B::POOL/DTCY/ABCDEFGHI'))
    if word == 'TDDK':
        change = all_of(change, after(22, ':20C::PROC//ABCDEFGHIJKLMNOP'), narrative('TDSVPOOL/DDTE20240313/DKRSE004'))
    return change


WIDEST = [('widest-%s-of-%d' % row, 0, 0, widest(row[0]))
          for row in (('INST', 648), ('CANC', 752), ('MDFC', 752), ('TDDK', 682), ('CDRQ', 700), ('CDRL', 700))]


def main():
    if sys.argv[1:] == ['P']:
        sys.stdout.write('\n'.join(P) + '\n')
        return
    if len(sys.argv) > 1:
        sys.exit(__doc__)
    for ending, name_of_it in (('\n', 'LF'), ('\r\n', 'CRLF')):
        for name, number, at, change in WORKED + MORE + WIDEST:
            head = '# %s-%s,want=%d@%d\n' % (name, name_of_it, number, at)
            sys.stdout.buffer.write((head + ''.join(text + ending for text in message(change))).encode('ascii'))


if __name__ == '__main__':
    main()

#!/usr/bin/env python3
"""Writes the example sale files beside this script, NAME.sale, and what settle_sale has to print of each, NAME.out.
docs/FORMATS.md has the formats. What is printed is not computed here: each sale stands with its award and its charges.

    python3 examples/make.py
"""
import os
import struct


def opening(lots, accounts, company):
    """lots: (units, reserve) each"""
    out = bytes([len(lots)])
    for units, reserve in lots:
        out += struct.pack('<BI', units, reserve)
    out += bytes([len(accounts)])
    for account in accounts:
        out += struct.pack('<I', account)
    return out + struct.pack('<Q', company)


def message(farm, number, *lines):
    """lines: (worth, units of each lot) each"""
    out = struct.pack('<BIB', farm, number, len(lines))
    for worth, *units in lines:
        out += struct.pack('<I', worth) + bytes(units)
    return out


def frame(m):
    return struct.pack('<H', len(m)) + m


def sale(lots, accounts, company, messages):
    return opening(lots, accounts, company) + b''.join(frame(m) for m in messages)


def refused(*messages):
    """messages: (number in the file, number of the refusal, place) each"""
    return ''.join(f'message {k} refused {n} at {p}\n' for k, n, p in messages)


def closed(worth, award, charges, accounts, company):
    """the accounts before the close; what is paid goes to the company"""
    out = f'worth {worth}\n'
    for farm, (line, pays, has) in enumerate(zip(award, charges, accounts)):
        out += f'farm {farm} line {line} pays {pays} has {has - pays}\n'
    return out + f'company {company + sum(charges)}\n'


def sample(lots, sheets, award, charges, worth, accounts=None):
    """One message for each farm, under number 1. sheets: the lines of each farm."""
    accounts = accounts or [200] * len(sheets)
    messages = [message(farm, 1, *lines) for farm, lines in enumerate(sheets)]
    return sale(lots, accounts, 1000, messages), closed(worth, award, charges, accounts, 1000)


TWO_GATES = [(1, 10), (1, 10)]
TWO_LOTS = [(2, 3), (2, 4)]

# three farms; farm 0 wants both lots, farms 1 and 2 want one each
THREE_FARMS = sample(TWO_GATES, [[(120, 1, 1)], [(70, 1, 0)], [(60, 0, 1)]],
                     award=[0, 1, 1], charges=[0, 60, 50], worth=130, accounts=[200, 100, 100])

FILES = {
    'three-farms': THREE_FARMS,
    # the same with a message for each refusal among them
    'refusals': (
        sale(TWO_GATES, [200, 100, 100], 1000, [
            message(0, 1, (120, 1, 1)),
            b'\x01\x07\x00',                       # fewer than six bytes
            message(3, 1),                         # no farm 3
            message(0, 1, (130, 1, 1)),            # number 1 was taken
            message(1, 1, *[(1, 1, 0)] * 33),      # 33 lines
            message(1, 1, (70, 1, 0)) + b'\x00',   # a byte too many
            message(1, 1, (101, 1, 0)),            # above the account of 100
            message(1, 1, (70, 1, 2)),             # two units of a lot of one
            message(1, 1, (70, 1, 0)),
            message(2, 1, (60, 0, 1)),
        ]),
        refused((1, 2, 3), (2, 3, 0), (3, 4, 1), (4, 5, 5), (5, 6, 13), (6, 7, 6), (7, 8, 11)) + THREE_FARMS[1],
    ),
    # a lot of 65 units
    'refused': (sale([(1, 10), (64, 10), (65, 10)], [200], 0, []), 'sale refused 10 at 2\n'),
    # 4,096 bundles and two farms: the table needs 12,288 entries, more than the program has; message 1 is for no farm
    'too-large': (
        sale([(63, 1), (63, 1)], [200, 200], 1000, [message(0, 1, (100, 63, 63)), message(2, 1), message(1, 1, (90, 1, 0))]),
        refused((1, 3, 0)) + 'sale refused 15 at 0\n',
    ),
    'sample-a': THREE_FARMS,
    # farm 1 writes more, and pays the same
    'sample-a1': sample(TWO_GATES, [[(120, 1, 1)], [(100, 1, 0)], [(60, 0, 1)]],
                        award=[0, 1, 1], charges=[0, 60, 20], worth=160),
    # farm 1 writes less, and gets nothing
    'sample-a2': sample(TWO_GATES, [[(120, 1, 1)], [(40, 1, 0)], [(60, 0, 1)]],
                        award=[1, 0, 0], charges=[100, 0, 0], worth=120),
    # farm 0 writes more than the other two
    'sample-b': sample(TWO_GATES, [[(140, 1, 1)], [(70, 1, 0)], [(60, 0, 1)]],
                       award=[1, 0, 0], charges=[130, 0, 0], worth=140),
    # as much as the other two: the first best choice gives farm 0 nothing
    'sample-c': sample(TWO_GATES, [[(130, 1, 1)], [(70, 1, 0)], [(60, 0, 1)]],
                       award=[0, 1, 1], charges=[0, 70, 60], worth=130),
    # one unit at 6 and two at the reserve are worth more than two units at 9 and one at the reserve
    'sample-d': sample([(3, 5)], [[(9, 2), (6, 1)]], award=[2], charges=[5], worth=16),
    # several lines for a farm, and more than one unit of a lot
    'sample-e': sample(TWO_LOTS, [[(30, 2, 0), (18, 1, 0)], [(25, 1, 1), (16, 0, 1)], [(21, 0, 2), (14, 1, 0)], [(19, 1, 0)]],
                       award=[2, 0, 1, 1], charges=[13, 0, 20, 13], worth=58),
    # sheets with no lines: all stays unsold
    'sample-f': sample([(2, 7), (3, 1)], [[], []], award=[0, 0], charges=[0, 0], worth=17),
    # two units among four farms
    'sample-g': sample([(2, 4)], [[(9, 1)], [(7, 1)], [(6, 1)], [(3, 1)]],
                       award=[1, 1, 0, 0], charges=[6, 6, 0, 0], worth=16),
    # one farm writes just the reserve
    'sample-h': sample([(1, 4)], [[(4, 1)]], award=[0], charges=[0], worth=4),
    # and one cent more
    'sample-i': sample([(1, 4)], [[(5, 1)]], award=[1], charges=[4], worth=5),
    # a line of no units is worth its worth, and costs nothing
    'sample-j': sample([(1, 4)], [[(5, 0)]], award=[1], charges=[0], worth=9),
}

if __name__ == '__main__':
    here = os.path.dirname(os.path.abspath(__file__))
    for name, (data, text) in FILES.items():
        with open(os.path.join(here, name + '.sale'), 'wb') as f:
            f.write(data)
        with open(os.path.join(here, name + '.out'), 'w') as f:
            f.write(text)

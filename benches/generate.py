#!/usr/bin/env python3
"""Writes the batches of the figures into a folder, from a seed: usage generate.py FOLDER

start     24 rules and one line
few       the same rules, and 200,000 lines of few shapes
many      the same rules, and 200,000 lines of many shapes
changes   start, and then 200 changes with no line between
shift     start, and then 200 changes with 1,000 lines of many shapes behind each
busy      the same with 20 lines behind each

NAME.batch has the rules as commands, NAME.patterns the same records with the rules as pattern texts.
"""
import pathlib
import random
import struct
import sys

SEED = 20_413
LINES = 200_000
CHANGES = 200

RULES = [
    r'log [0-9]+', r'log [0-9]+ d[0-9]+ l[0-9]+', r'butt [0-9]+mm', r'top [0-9]+mm',
    r'kerf [0-9]\.[0-9]+', r'feed [0-9]+(\.[0-9])? m/min', r'board [0-9]+x[0-9]+', r'side [0-9]+x[0-9]+x[0-9]+',
    r'blade [0-9]+ (ok|change)', r'saw [0-9] (on|off|idle)', r'[0-9]+(\.[0-9]+)?(mm)?', r'[0-9][0-9]:[0-9][0-9]',
    r'alarm [0-9]+.*', r'[EW][0-9][0-9]+:.*', r'.*stop.*', r'.*mm',
    r'#[0-9]+;[^;]*;[0-9]+', r'[A-Z]+[0-9]+-[0-9]+', r'D=?[0-9]+', r'k[0-9]+',
    r'[a-z]+', r'[^ ]+ +[^ ]+', r'lot [0-9]+', r'pack [0-9]+/[0-9]+',
]
# rules that come and go, under the numbers from 24 on
VISITORS = [r'log 20.*', r'.*jam.*', r'k4+', r'd3[0-9][0-9]', r'alarm 11.*', r'W0.*', r'[0-9]+ pcs', r'lot 4711']
WORDS = ('infeed outfeed chain slack belt motor overload oil pressure low high blade guard open check sensor dirty skew emergency '
         'stop hydraulic jam reset by operator waiting clearance edger worn pcs conveyor').split()

# ---- pattern texts as commands


def choice(text, at):
    out, at = sequence(text, at)
    while at < len(text) and text[at] == '|':
        more, at = sequence(text, at + 1)
        out += more + b'A'
    return out, at


def sequence(text, at):
    out = b''
    while at < len(text) and text[at] not in '|)':
        piece, at = atom(text, at)
        while at < len(text) and text[at] in '*+?':
            piece += {'*': b'S', '+': b'P', '?': b'O'}[text[at]]
            at += 1
        out += piece + b'J' if out else piece
    return out or b'E', at


def atom(text, at):
    if text[at] == '(':
        out, at = choice(text, at + 1)
        return out, at + 1
    if text[at] == '[':
        end = text.index(']', at)
        return members(text[at + 1:end]), end + 1
    if text[at] == '.':
        return symbols(0, 255), at + 1
    at += text[at] == '\\'
    return symbols(ord(text[at]), ord(text[at])), at + 1


def symbols(low, high):
    return b'C' + struct.pack('>H', low) if low == high else b'R' + struct.pack('>HH', low, high)


def members(body):
    others = body.startswith('^')
    body, held, at = body[others:], set(), 0
    while at < len(body):
        if body[at + 1:at + 2] == '-':
            held |= set(range(ord(body[at]), ord(body[at + 2]) + 1))
            at += 3
        else:
            held.add(ord(body[at]))
            at += 1
    if others:
        held = set(range(256)) - held
    lows = [c for c in sorted(held) if c - 1 not in held]
    highs = [c for c in sorted(held) if c + 1 not in held]
    runs = [symbols(low, high) for low, high in zip(lows, highs)]
    return runs[0] + b''.join(run + b'A' for run in runs[1:])


def positions(text):
    """What a rule takes of the book's 256 positions: one for each symbol, and one for its end."""
    commands, at, count = choice(text, 0)[0], 0, 1
    while at < len(commands):
        letter = commands[at:at + 1]
        count += letter in b'CR'
        at += {b'C': 3, b'R': 5}.get(letter, 1)
    return count


# ---- records


def add(rule, text):
    def record(operands):
        return b'A' + struct.pack('>BHH', rule, 100 + rule, len(operands)) + operands
    return record(choice(text, 0)[0]), record(text.encode('latin-1'))


def delete(rule):
    return (b'D' + bytes([rule]),) * 2


def line(text):
    return (b'L' + struct.pack('>H', len(text)) + text.encode('latin-1'),) * 2


# ---- lines


def digits(r, least, most):
    return ''.join(r.choice('0123456789') for _ in range(r.randint(least, most)))


def words(r, least, most):
    return ' '.join(r.choice(WORDS) for _ in range(r.randint(least, most)))


def few_shapes(r):
    d = lambda least, most: digits(r, least, most)
    return r.choices([
        lambda: f'log {d(8, 10)} d{d(3, 3)} l{d(4, 4)}',
        lambda: f'butt {d(3, 3)}mm',
        lambda: f'board {d(2, 2)}x{d(3, 3)}',
        lambda: f'kerf {d(1, 1)}.{d(1, 2)}',
        lambda: f'{d(3, 4)}.{d(1, 2)}mm',
        lambda: f'log {d(8, 10)} d{d(3, 3)} l?',
    ], [45, 30, 12, 6, 4, 3])[0]()


def many_shapes(r):
    d = lambda least, most: digits(r, least, most)
    return r.choice([
        lambda: f'log {d(4, 12)} d{d(3, 3)} l{d(4, 4)}', lambda: f'log {d(4, 8)}', lambda: f'butt {d(2, 3)}mm',
        lambda: f'top {d(2, 3)}mm', lambda: f'kerf {d(1, 1)}.{d(1, 2)}', lambda: f'feed {d(2, 2)}.{d(1, 1)} m/min',
        lambda: f'board {d(2, 2)}x{d(3, 3)}', lambda: f'side {d(2, 2)}x{d(3, 3)}x{d(4, 4)}',
        lambda: f'blade {d(1, 2)} {r.choice(["ok", "change", "changed"])}',
        lambda: f'saw {d(1, 1)} {r.choice(["on", "off", "idle", "fault"])}', lambda: f'{d(1, 5)}', lambda: f'{d(3, 4)}.{d(1, 2)}mm',
        lambda: f'{d(2, 2)}:{d(2, 2)}', lambda: f'alarm {d(2, 3)} {words(r, 3, 9)}', lambda: f'{r.choice("EW")}{d(3, 3)}: {words(r, 3, 9)}',
        lambda: f'#{d(4, 6)};{words(r, 2, 6)};{d(2, 4)}', lambda: f'{r.choice(["K", "KT", "SA"])}{d(2, 5)}-{d(1, 2)}', lambda: f'D={d(3, 3)}',
        lambda: f'k{d(1, 4)}', lambda: words(r, 1, 1), lambda: words(r, 2, 2), lambda: words(r, 5, 14), lambda: f'lot {d(4, 4)}',
        lambda: f'pack {d(2, 3)}/{d(2, 3)}',
    ])()


# ---- changes


def changes(r):
    """A rule of the 24 goes out and comes in again, or a visitor comes or goes."""
    free = 256 - sum(map(positions, RULES))
    assert free >= max(map(positions, VISITORS))
    guests, out = {}, []
    while len(out) < CHANGES:
        kind = r.randrange(3)
        text = r.choice(VISITORS)
        if kind == 0 and len(out) + 2 <= CHANGES:
            rule = r.randrange(len(RULES))
            out += [delete(rule), add(rule, RULES[rule])]
        elif kind == 1 and positions(text) <= free and len(guests) < 40:
            rule = r.choice([n for n in range(24, 64) if n not in guests])
            guests[rule] = positions(text)
            free -= positions(text)
            out.append(add(rule, text))
        elif kind == 2 and guests:
            rule = r.choice(sorted(guests))
            free += guests.pop(rule)
            out.append(delete(rule))
    return out


def main():
    folder = pathlib.Path(sys.argv[1])
    r = random.Random(SEED)
    start = [add(rule, text) for rule, text in enumerate(RULES)] + [line('log 1')]
    made = changes(r)
    stretches = [[line(many_shapes(r)) for _ in range(LINES // CHANGES)] for _ in made]
    batches = {
        'start': start,
        'few': start + [line(few_shapes(r)) for _ in range(LINES)],
        'many': start + [line(many_shapes(r)) for _ in range(LINES)],
        'changes': start + made,
        'shift': start + [record for change, stretch in zip(made, stretches) for record in [change] + stretch],
        'busy': start + [record for change, stretch in zip(made, stretches) for record in [change] + stretch[:20]],
    }
    for name, records in batches.items():
        (folder / f'{name}.batch').write_bytes(b''.join(record[0] for record in records))
        (folder / f'{name}.patterns').write_bytes(b''.join(record[1] for record in records))


main()

#!/usr/bin/env python3
"""usage: tests/adif.py make COUNT SEED | judge LINKS ANSWERS

The link log judged in another language, with nothing of the port. `make` writes lines for tests/adif.c: both sides of every limit, then
COUNT random links that are accepted. `judge` reads LINKS and the ANSWERS to them: the refusal reckoned anew, each record read by ADIF's
syntax, dates and times by Python's datetime. The last line says how many were alike; the status is 1 where one is not.
"""
import datetime, random, sys

LAST = 4102444799
CHARS = 'ABCDEFGHIJKLMNOPQRSTUVWXYZ0123456789/'
NAMES = ['CALL', 'QSO_DATE', 'TIME_ON', 'QSO_DATE_OFF', 'TIME_OFF', 'APP_STATION_ACKED']


def line(call, on, off, acked, room):
    return '%s %d %d %d %d' % (call.hex() or '-', on, off, acked, room)


def limits():
    for c in range(256):                                            # every character, alone and at either end
        for call in (bytes([c]), bytes([c]) + b'1A', b'K1ABC/MM/QR' + bytes([c])):
            yield call, 0, 1, 2, 256
    for n in range(20):
        yield b'K' * n, 0, 0, 0, 256
    times = [0, 1, 59, 60, 3599, 3600, 86399, 86400, LAST - 1, LAST, LAST + 1, 2 ** 32 - 1, 2 ** 32, 2 ** 63, 2 ** 64 - 1]
    for on in times:
        for off in times:
            yield b'W9XYZ/P', on, off, 7, 256
    for k in range(10):
        for acked in (10 ** k - 1, 10 ** k, 10 ** k + 1):
            yield b'A', 0, 0, acked, 256
    yield b'A', 0, 0, 2 ** 32 - 1, 256
    for room in (0, 1, 114, 115, 137, 189, 254, 255, 256, 257, 300, 65536):
        for call in (b'', b'K', b'ABCDEFGHIJKL', b'k'):             # and the order of the refusals
            for on, off in ((5, 6), (6, 5), (LAST, LAST), (0, LAST + 1)):
                yield call, on, off, 2 ** 32 - 1, room


def chance(n, seed):
    r = random.Random(seed)
    for _ in range(n):
        call = ''.join(r.choice(CHARS) for _ in range(r.randint(1, 12)))
        on = r.randint(0, LAST)
        off = min(LAST, on + r.choice((r.randint(0, 90), r.randint(0, 86400), r.randint(0, LAST))))
        yield call.encode(), on, off, r.randint(0, 10 ** r.randint(0, 9)), r.randint(256, 400)


def refusal(call, on, off, room):
    if not 1 <= len(call) <= 12 or any(chr(c) not in CHARS for c in call):
        return 20
    if max(on, off) > LAST or off < on:
        return 21
    return 22 if room < 256 else 0


def fields(text):
    """ADIF's syntax: `<NAME:COUNT[:TYPE]>`, COUNT characters, .. `<EOR>`. Nothing may stand between fields or behind."""
    found, at = [], 0
    while True:
        if text[at] != '<':
            raise ValueError('%r where a field begins' % text[at])
        end = text.index('>', at)
        tag = text[at + 1:end].split(':')
        at = end + 1
        if len(tag) == 1:
            if tag[0].upper() != 'EOR' or at != len(text):
                raise ValueError('tag %r at the end' % tag[0])
            return found
        found.append((tag[0], text[at:at + int(tag[1])]))
        if len(found[-1][1]) != int(tag[1]):
            raise ValueError('a field is cut')
        at += int(tag[1])


def second(date, time):
    if len(date) != 8 or len(time) != 6:
        raise ValueError('width')
    t = datetime.datetime.strptime(date + time, '%Y%m%d%H%M%S').replace(tzinfo=datetime.timezone.utc)
    return round(t.timestamp())


def wrong(link, answer):
    """What is wrong with an answer, or None."""
    call, on, off, acked, room = link.split()
    call, on, off, acked, room = b'' if call == '-' else bytes.fromhex(call), int(on), int(off), int(acked), int(room)
    told, length, text = (answer + ' ').split(' ', 2)
    text = text[:-1]
    if int(told) != refusal(call, on, off, room):
        return 'refusal'
    if int(length) != len(text):
        return 'length'
    if int(told):
        return None if text == '' else 'a record of a refused link'
    found = fields(text)
    if [name for name, _ in found] != NAMES:
        return 'names'
    f = dict(found)
    if f['CALL'] != call.decode():
        return 'call sign'
    if second(f['QSO_DATE'], f['TIME_ON']) != on or second(f['QSO_DATE_OFF'], f['TIME_OFF']) != off:
        return 'time'
    return None if f['APP_STATION_ACKED'] == str(acked) else 'count'


def main(args):
    if len(args) == 3 and args[0] == 'make':
        for link in [*limits(), *chance(int(args[1]), int(args[2]))]:
            print(line(*link))
        return 0
    if len(args) != 3 or args[0] != 'judge':
        print(__doc__.splitlines()[0], file=sys.stderr)
        return 2
    links, answers = (open(p, encoding='ascii').read().splitlines() for p in args[1:])
    if len(links) != len(answers):
        print('%d links, %d answers' % (len(links), len(answers)))
        return 1
    made = 0
    for link, answer in zip(links, answers):
        try:
            why = wrong(link, answer)
        except (ValueError, IndexError) as e:
            why = str(e)
        if why:
            print('%s\n%s\n%s' % (link, answer, why))
            return 1
        made += answer.startswith('0 ')
    print('%d records read back, %d refused as reckoned' % (made, len(links) - made))
    return 0


if __name__ == '__main__':
    sys.exit(main(sys.argv[1:]))

#!/usr/bin/env python3
"""usage: tests/card.py run PROGRAM COUNT SEED | show PROGRAM COUNT SEED | list LIST

Cards judged in another language, with nothing of the port: a reader and a writer with Python's struct, by docs/CARD.md, and document 01's ranges.
`run` gives PROGRAM (tests/card.c) COUNT random profiles to write and their cards to read, cards of random bytes, every change of one byte of a good card,
every length from 0 to 800, every version byte with 0, 1 and the most further bytes, and compares every answer. `show` has PROGRAM (examples/card.c) show
COUNT changed cards and compares what they are refused by. The last line counts; the status is 1 where an answer is another.
`list` writes the transcript of a call list with `card` and `load` lines (docs/CALLS.md). Other calls are `out`, and those whose answer is handed in: a
remark `#= ANSWER` before the call has it, and a remark `#end COUNTS` what the present sender's end line says where it is not 0 0 0 0. Lines are right but for
those that begin with `card` or `load`: a wrong one is the list's last.
"""
import math, random, re, struct, subprocess, sys, tempfile, zlib

BYTES = 751
# The sections of docs/CARD.md: field, struct's letter, how many. A letter ? is a place that is on or off.
LEVELS = [('slot_bits', 'I', 17), ('pre_s', 'd', 17), ('rate', 'd', 17), ('max_bits', 'I', 17)]
WAVES = [('ack_s', 'd', 6)]
THRESHOLDS = [('thresholds_db', 'f', 17), ('margin_db', 'f', 1), ('eff_thresholds_db', 'f', 17), ('eff_margin_db', 'f', 1)]
OPTIONS = [(name, 'd', 1) for name in 'cue_s max_burst_s max_burst_long_s burst_overhead turnaround_s fail_hold_s fail_hold_max_s loss_hold_s'.split()]
OPTIONS += [('short_bytes', 'I', 1), ('long_bytes', 'I', 1), ('mother', 'I', 1), ('ends', 'I', 6)]
OPTIONS += [(name, 'f', 1) for name in 'burst_steady_db burst_climb_db cue_below_db start_margin_db'.split()]
OPTIONS += [('max_level', 'B', 1), ('skip_slices_from', 'B', 1), ('power', 'B', 1), ('pin_level', 'Q', 1)]
OPTIONS += [(name, '?', 1) for name in ('burst_climb_set start_margin_set pin_set burst_adapt eff_snr goodput harq pick_family smooth_target '
                                        'hold_by_goodput slice_slots merge_pieces cue harq_partial').split()]
OPTIONS += [('harq_stretch', '?', 1)]                                # retired: off in a profile, and in a file that is written
SECTIONS = [LEVELS, WAVES, THRESHOLDS, OPTIONS]
# The order of include/vanitycrow.h, in which tests/card.c takes and gives the fields.
MEMORY = LEVELS + WAVES + [('cue_s', 'd', 1), ('short_bytes', 'I', 1), ('long_bytes', 'I', 1), ('mother', 'I', 1), ('ends', 'I', 6)]
MEMORY += [(name, 'd', 1) for name in 'max_burst_s max_burst_long_s burst_overhead turnaround_s'.split()]
MEMORY += [('burst_adapt', '?', 1), ('burst_steady_db', 'f', 1), ('burst_climb_set', '?', 1), ('burst_climb_db', 'f', 1)]
MEMORY += [(name, 'd', 1) for name in 'fail_hold_s fail_hold_max_s loss_hold_s'.split()] + THRESHOLDS
MEMORY += [('eff_snr', '?', 1), ('cue_below_db', 'f', 1), ('start_margin_set', '?', 1), ('start_margin_db', 'f', 1)]
MEMORY += [('max_level', 'Q', 1), ('skip_slices_from', 'Q', 1), ('pin_set', '?', 1), ('pin_level', 'Q', 1), ('goodput', '?', 1), ('power', 'B', 1)]
MEMORY += [(name, '?', 1) for name in 'harq pick_family smooth_target hold_by_goodput slice_slots merge_pieces cue harq_partial'.split()]
# Document 01's ranges, and the switch beside an optional value.
RANGE = {'slot_bits': (1, 16384), 'pre_s': (0, 60), 'rate': (1, 100000), 'max_bits': (1, 2 ** 32 - 1), 'ack_s': (0, 60), 'cue_s': (0, 10),
         'max_burst_s': (1, 1000), 'max_burst_long_s': (1, 1000), 'burst_overhead': (0.01, 1), 'turnaround_s': (0, 60), 'fail_hold_s': (1, 100000),
         'fail_hold_max_s': (0, 1000000), 'loss_hold_s': (0, 1000000), 'short_bytes': (18, 512), 'long_bytes': (18, 512), 'mother': (1, 16384),
         'ends': (1, 16384), 'max_level': (0, 16), 'skip_slices_from': (0, 17), 'power': (0, 2), 'pin_level': (0, 16)}
RANGE.update({name: (-100, 100) for name in ('thresholds_db margin_db eff_thresholds_db eff_margin_db burst_steady_db burst_climb_db cue_below_db '
                                             'start_margin_db').split()})
SWITCH = {'burst_climb_db': 'burst_climb_set', 'start_margin_db': 'start_margin_set', 'pin_level': 'pin_set'}
ONES = {'f': b'\xff' * 4, 'd': b'\xff' * 8}


def form(fields, place):
    return struct.Struct('<' + ''.join('%d%s' % (n, place if letter == '?' else letter) for _, letter, n in fields))


FORM = {id(fields): (form(fields, '?'), form(fields, 'B')) for fields in SECTIONS + [MEMORY]}


def packed(fields, p):
    """Fields back to back, low byte first, floats by their bits, a NaN as all ones."""
    values = [v for name, _, _ in fields for v in p[name]]
    if not any(v != v for v in values):
        return FORM[id(fields)][0].pack(*values)
    return b''.join(ONES[letter] if v != v else struct.pack('<' + letter, v) for name, letter, _ in fields for v in p[name])


def unpacked(fields, b):
    """The fields, and whether every place was on or off."""
    bytewise = FORM[id(fields)][1]
    p, at, good = {}, 0, True
    values = bytewise.unpack(b[:bytewise.size])
    for name, letter, n in fields:
        p[name], at = values[at:at + n], at + n
        if letter == '?':
            good = good and p[name][0] <= 1
            p[name] = [p[name][0] == 1]
    return p, good


def profile_refusal(p):
    for name, (low, high) in RANGE.items():
        if name in SWITCH and not p[SWITCH[name]][0]:
            continue
        if not all(low <= v <= high for v in p[name]):
            return 1
    return 2 if p['short_bytes'][0] > p['long_bytes'][0] else 0


def file_of(p):
    b = b'\1'
    for fields in SECTIONS:
        part = packed(fields, {'harq_stretch': [False], **p})
        b += struct.pack('<H', len(part)) + part
    return b


def write(p, room):
    refusal = profile_refusal(p) or (14 if room < BYTES else 0)
    return (refusal, b'') if refusal else (0, file_of(p))


def cut(b):
    """The four sections by their counts, or None where they don't fill the file."""
    parts, at = [], 1
    for _ in range(4):
        if at + 2 > len(b):
            return None
        n = struct.unpack('<H', b[at:at + 2])[0]
        parts.append(b[at + 2:at + 2 + n])
        at += 2 + n
    return parts if at == len(b) else None


def read(b):
    """The refusal, the profile where there is none, and whether harq_stretch was on where the file is taken."""
    if b and not 1 <= b[0] <= 15:
        return 13, None, False
    parts = cut(b) if b else None
    wants = [408, 48, 144, 142]
    if not parts or [len(x) for x in parts[:3]] != wants[:3] or len(parts[3]) < 142 or (b[0] == 1 and len(parts[3]) > 142):
        return 14, None, False
    if b[0] >= 2 and parts[3][141]:
        return 18, None, False
    p = {}
    good = True
    for fields, part in zip(SECTIONS, parts):
        q, right = unpacked(fields, part)
        p.update(q)
        good = good and right
    refusal = profile_refusal(p) if good else 1
    stretched = p.pop('harq_stretch')[0]
    return (refusal, None, False) if refusal else (0, p, stretched)


# ---- random profiles

def single(x):
    return struct.unpack('<f', struct.pack('<f', x))[0]


def any_float(r, letter):
    """Any bits; numbers that matter among them."""
    some = r.choice([0.0, -0.0, 1.0, math.inf, -math.inf, math.nan, 1e-40, -100.0, 100.0, 100.00001, None, None])
    bits = bytes(r.randrange(256) for _ in range(struct.calcsize(letter)))
    return struct.unpack('<' + letter, bits)[0] if some is None else single(some) if letter == 'f' else some


def value(r, name, letter):
    low, high = RANGE[name]
    if letter in 'fd':
        x = r.choice([low, high, r.uniform(low, high), r.uniform(low, high), -0.0 if low <= 0 else low])
        return min(max(single(x), -100.0), 100.0) if letter == 'f' else float(x)
    return r.choice([low, high, r.randint(low, high), r.randint(low, min(high, low + 40))])


def random_profile(r):
    p = {}
    for name, letter, n in MEMORY:
        p[name] = [r.random() < 0.5 if letter == '?' else value(r, name, letter) for _ in range(n)]
    if p['short_bytes'][0] > p['long_bytes'][0] and r.random() < 0.9:
        p['short_bytes'], p['long_bytes'] = p['long_bytes'], p['short_bytes']
    for name, switch in SWITCH.items():
        if not p[switch][0]:                                        # anything may stand beside an option that is off
            p[name] = [r.randrange(2 ** r.randint(0, 64)) if name == 'pin_level' else any_float(r, 'f')]
    if r.random() < 0.3:                                            # one value out of its range, or on the limit
        name, letter, n = r.choice([f for f in MEMORY if f[0] in RANGE])
        low, high = RANGE[name]
        most = {'I': 2 ** 32 - 1, 'Q': 2 ** 64 - 1, 'B': 255}.get(letter)
        p[name] = list(p[name])
        i = r.randrange(n)
        if most is None:
            p[name][i] = any_float(r, letter)
        else:
            p[name][i] = min(most, r.choice([max(low - 1, 0), low, high, high + 1, most, high + 256, high + 2 ** 32, r.randint(0, most)]))
    return p


# ---- the run over the C interface

def crc(p):
    return zlib.crc32(packed(MEMORY, p))


def hexed(b):
    return b.hex() or '-'


def answer_of(refusal, b):
    return '%d %s' % (refusal, '-' if refusal else b.hex())


def read_answer(b):
    refusal, p, stretched = read(b)
    return '%s %d' % (answer_of(refusal, packed(MEMORY, p) if p else b''), stretched)


def good_profiles(r):
    while True:
        p = random_profile(r)
        if profile_refusal(p) == 0:
            yield p


def profiles(n, r):
    """Profiles to write, and their cards to read."""
    for _ in range(n):
        p = random_profile(r)
        room = r.choice([BYTES, BYTES, BYTES, BYTES + 1, 2000, BYTES - 1, 0, r.randint(0, 800)])
        refusal, b = write(p, room)
        yield 'write %d %s' % (room, packed(MEMORY, p).hex()), [answer_of(refusal, b)]
        card = file_of({**p, **{k: [min(v, 255) for v in p[k]] for k in ('max_level', 'skip_slices_from')}})
        yield 'read ' + card.hex(), [read_answer(card)]


def noise(n, r):
    """Good cards with random bytes in some places, of random versions and with further bytes."""
    good = good_profiles(r)
    for _ in range(n):
        b = bytearray(file_of(next(good)))
        for _ in range(r.randint(0, 3)):
            b[r.randrange(len(b))] = r.choice([0, 1, 2, 255, r.randrange(256)])
        b[BYTES - 1] = r.choice([0, 0, 0, 0, 1, 1, 2, r.randrange(256)])
        if r.random() < 0.5:
            more = r.randint(0, 40)
            b[0], b[607:609] = r.randint(0, 17), struct.pack('<H', 142 + more + r.choice([0, 0, 0, -1, 1]))
            b += bytes(r.randrange(256) for _ in range(more))
        yield 'read ' + b.hex(), [read_answer(bytes(b))]


def single_changes(b):
    answers = []
    for i in range(len(b)):
        for v in range(256):
            if v != b[i]:
                refusal, p, stretched = read(b[:i] + bytes([v]) + b[i + 1:])
                answers.append('%d %d %d' % (refusal, crc(p) if p else 0, stretched))
    return 'changes ' + b.hex(), answers


def lengths(b):
    for n in range(801):
        for part in (b[:n] + bytes(max(0, n - len(b))), b[:1] + b[1:n] + b'\xff' * max(0, n - len(b))):
            yield 'read ' + hexed(part), [read_answer(part)]


def versions(b):
    for version in range(256):
        for more in (0, 1, 65535 - 142):
            part = bytes([version]) + b[1:607] + struct.pack('<H', 142 + more) + b[609:] + bytes([165]) * more
            yield 'read ' + part.hex(), [read_answer(part)]
            for stretch in (1, 2, 255) if more < 2 else ():         # harq_stretch, and with it a number out of range: 18 comes first
                for power in (0, 3):
                    other = part[:727] + bytes([power]) + part[728:750] + bytes([stretch]) + part[751:]
                    yield 'read ' + other.hex(), [read_answer(other)]
            if more == 1:                                           # the count without the byte, and the byte without the count
                for other in (part[:-1], b[:1].replace(b'\1', bytes([version])) + b[1:] + b'\0'):
                    yield 'read ' + other.hex(), [read_answer(other)]


def all_lines(count, seed):
    r = random.Random(seed)
    yield from profiles(count, r)
    yield from noise(count, r)
    good = next(good_profiles(r))
    yield from lengths(file_of(good))
    yield from versions(file_of(good))
    yield single_changes(file_of(good))


def run(program, count, seed):
    wanted, taken = [], 0
    with tempfile.TemporaryFile('w+') as lines, tempfile.TemporaryFile('w+') as answers:
        for line, some in all_lines(count, seed):
            lines.write(line + '\n')
            wanted += some
        lines.seek(0)
        status = subprocess.run([program], stdin=lines, stdout=answers).returncode
        answers.seek(0)
        got = answers.read().splitlines()
    for i, answer in enumerate(wanted):
        if i >= len(got) or got[i] != answer:
            print('answer %d: %s\nis to be: %s' % (i + 1, got[i] if i < len(got) else 'none', answer))
            return 1
        taken += answer.startswith('0 ')
    if status or len(got) != len(wanted):
        print('%d answers, status %d: %s' % (len(got), status, got[-1]))
        return 1
    print('%d answers alike, %d of them of cards and profiles that are taken' % (len(wanted), taken))
    return 0


# ---- the command

def show(program, count, seed):
    r = random.Random(seed)
    good = good_profiles(r)
    tally = {}
    for _ in range(count):
        b = bytearray(file_of(next(good)))
        for _ in range(r.randint(0, 2)):
            b[r.choice([0, 1, 607, 608, r.randrange(609), 609 + r.randrange(142), 736 + r.randrange(15)])] = r.randrange(256)
        b[0], b[750] = r.choice([(b[0], b[750]), (b[0], 1), (r.randint(2, 15), r.choice([0, 1, 2]))])
        if r.random() < 0.2:
            b[673:681] = struct.pack('<II', r.randint(18, 512), r.randint(18, 512))
        b = bytes(b[:r.choice([751, 751, 751, 751, 750, 0])])
        refusal, _, stretched = read(b)
        with tempfile.NamedTemporaryFile() as f:
            f.write(b)
            f.flush()
            made = subprocess.run([program, 'show', f.name], capture_output=True, text=True)
        last = 'refused by %d' % refusal if refusal else 'taken, harq_stretch off' if stretched else 'taken'
        marks = re.findall(r'^ +refused by (\d+): ', made.stdout, re.M)
        if made.returncode != (1 if refusal else 0) or made.stdout.splitlines()[-1] != last or set(marks) != ({str(refusal)} if refusal else set()):
            print('%s\n%s%s' % (b.hex(), made.stdout, made.stderr))
            return 1
        tally[refusal] = tally.get(refusal, 0) + 1
    print('%d cards shown: %s' % (count, ', '.join('%d %s' % (n, 'refused by %d' % k if k else 'taken') for k, n in sorted(tally.items()))))
    return 0


# ---- call lists

def words_of(line, p):
    """A line of a profile into its fields."""
    word, *values = line.split(' ')
    f64, f32 = (lambda w: struct.unpack('>d', bytes.fromhex(w[2:]))[0]), (lambda w: struct.unpack('>f', bytes.fromhex(w[2:]))[0])
    if word == 'level':
        for name, w, of in zip(('slot_bits', 'pre_s', 'rate', 'max_bits'), values, (int, f64, f64, int)):
            p.setdefault(name, []).append(of(w))
    elif word in ('start_margin_db', 'burst_climb_db'):
        p[SWITCH[word]], p[word] = [values[0] != 'none'], [0.0 if values[0] == 'none' else f32(values[0])]
    elif word == 'pin_level':
        p['pin_set'], p['pin_level'] = [values[0] != 'none'], [0 if values[0] == 'none' else int(values[0])]
    elif word == 'gear':
        p['goodput'] = [values[0] == 'goodput']
    elif word == 'power':
        p['power'] = [('none', 'mean', 'td').index(values[0])]
    else:
        names = {'ack_s': ['ack_s'] * 6, 'frame_bytes': ['short_bytes', 'long_bytes'], 'harq': ['mother'] + ['ends'] * 6,
                 'burst': ['max_burst_s', 'max_burst_long_s', 'burst_overhead', 'turnaround_s'], 'hold': ['fail_hold_s', 'fail_hold_max_s', 'loss_hold_s'],
                 'db': ['margin_db', 'eff_margin_db', 'cue_below_db', 'burst_steady_db'], 'levels': ['max_level', 'skip_slices_from'],
                 'on': ('harq pick_family eff_snr burst_adapt smooth_target hold_by_goodput slice_slots merge_pieces cue harq_partial').split()}
        letters = {name: letter for name, letter, _ in MEMORY}
        for name, w in zip(names.get(word, [word] * len(values)), values):
            of = {'d': f64, 'f': f32, '?': lambda b: b == '1'}.get(letters[name], int)
            p.setdefault(name, []).append(of(w))


def transcript(lines):
    stage, room, handed, p = 'none', 0, None, {}
    end = fresh = 'end 0 0 0 0'
    for n, line in enumerate(lines, 1):
        word = line.split(' ')[0]
        if word == '#=':
            handed = line[3:]
        elif word == '#end':
            end = line[1:]
        elif line == '' or line[0] == '#':
            pass
        elif stage == 'open':
            if word in ('card', 'load'):
                yield 'error %d' % n
                return
            words_of(line, p)
            if word == 'on':
                stage, room = 'whole', 32768
        elif word == 'profile':
            if stage == 'whole':
                yield end
            stage, p, end = 'open', {}, fresh
        else:
            answer = handed
            if word == 'out' and stage == 'whole':
                room, answer = int(line[4:]), 'out ok'
            elif word == 'card':
                refusal, b = write(p, room) if stage == 'whole' else (0, b'')
                answer = None if line != 'card' or stage != 'whole' else 'card refused %d' % refusal if refusal else 'card ok ' + b.hex()
            elif word == 'load':
                found = re.fullmatch('load ((?:[0-9a-f]{2})+|-)', line)
                refusal, q, stretched = read(b'' if found[1] == '-' else bytes.fromhex(found[1])) if found else (0, None, False)
                answer = None if not found else 'load refused %d' % refusal if refusal else 'load ok stretched' if stretched else 'load ok'
                if q:
                    if stage == 'whole':
                        yield end
                    stage, room, p, end = 'whole', 32768, q, fresh
            yield answer or 'error %d' % n
            if not answer:
                return
            handed = None
    yield end


def main(args):
    if len(args) == 2 and args[0] == 'list':
        for line in transcript(open(args[1], encoding='ascii').read().splitlines()):
            print(line)
        return 0
    if len(args) == 4 and args[0] in ('run', 'show'):
        return {'run': run, 'show': show}[args[0]](args[1], int(args[2]), int(args[3]))
    print(__doc__.splitlines()[0], file=sys.stderr)
    return 2


if __name__ == '__main__':
    sys.exit(main(sys.argv[1:]))

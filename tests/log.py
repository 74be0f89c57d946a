#!/usr/bin/env python3
"""usage: tests/log.py LIST

The transcript of a call list with `log` lines, with nothing of the port: refusals as in tests/adif.py, dates and times by Python's datetime.
Other calls are `out`, and those whose answer is handed in: a remark `#= ANSWER` before the call has it. No call may take bytes. Lines
are right but for those that begin with `log`: a wrong one is the list's last.
"""
import datetime, re, sys
sys.dont_write_bytecode = True
import adif

LINE = re.compile('log ((?:[0-9a-f]{2})+|-) ([0-9]+) ([0-9]+) ([0-9]+)')


def moment(t):
    d = datetime.datetime.fromtimestamp(t, datetime.timezone.utc)
    return [d.strftime('%Y%m%d'), d.strftime('%H%M%S')]


def record(call, on, off, acked):
    values = [call.decode(), *moment(on), *moment(off), str(acked)]
    return ''.join('<%s:%d>%s' % (name, len(v), v) for name, v in zip(adif.NAMES, values)) + '<EOR>'


def log(line, room):
    """The answer to a line, or None where it breaks the rules."""
    found = LINE.fullmatch(line)
    if not found:
        return None
    call = b'' if found[1] == '-' else bytes.fromhex(found[1])
    on, off, acked = (int(w) for w in found.groups()[1:])
    if max(on, off) >= 2 ** 64 or acked >= 2 ** 32:
        return None
    refusal = adif.refusal(call, on, off, room)
    return 'log refused %d' % refusal if refusal else 'log ok ' + record(call, on, off, acked)


def transcript(lines):
    stage, room, handed = 'none', 0, None
    for n, line in enumerate(lines, 1):
        word = line.split(' ')[0]
        if word == '#=':
            handed = line[3:]
        elif line == '' or line[0] == '#':
            pass
        elif stage == 'open' and word != 'log':
            if word == 'on':
                stage, room = 'whole', 32768
        elif word == 'profile':
            if stage == 'whole':
                yield 'end 0 0 0 0'
            stage = 'open'
        else:
            answer = handed
            if word == 'out':
                room, answer = int(line[4:]), 'out ok'
            if word == 'log':
                answer = log(line, room) if stage == 'whole' else None
            yield answer or 'error %d' % n
            if not answer:
                return
            handed = None
    yield 'end 0 0 0 0'


def main(args):
    if len(args) != 1:
        print(__doc__.splitlines()[0], file=sys.stderr)
        return 2
    for line in transcript(open(args[0], encoding='ascii').read().splitlines()):
        print(line)
    return 0


if __name__ == '__main__':
    sys.exit(main(sys.argv[1:]))

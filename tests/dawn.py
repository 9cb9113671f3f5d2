#!/usr/bin/env python3
"""The dawn flight of the console's stored test: each line, what it prints, and why.

    tests/dawn.py           checks that crates/console/stdin and stdout and the table of docs/DAWN.md are exactly these lines
    tests/dawn.py --write   writes all three

In the table a line is whole, or named by its file and number.

The answers are worked out here from document 01, with the CRC of Python's own binascii (polynomial 0x1021), and not by the pod.
"""
import binascii
import os
import sys

TOP = os.path.join(os.path.dirname(os.path.abspath(__file__)), '..')
STORED = 'crates/console/'
PAGE = 'docs/DAWN.md'
HEAD = '| line | prints | why |\n|---|---|---|\n'
LONG = 100  # characters of a line that the page shows whole
FLIGHT = []  # (line, answer, why)


def number(value, size):
    """A number of so many bytes, high byte first."""
    return list((value % (1 << 8 * size)).to_bytes(size, 'big'))


def checked(body):
    """The bytes with their CRC: start 0xFFFF, high byte first."""
    return body + number(binascii.crc_hqx(bytes(body), 0xFFFF), 2)


def spelled(values, digits=2):
    return ''.join(' %0*X' % (digits, v) for v in values)


def say(line, answer, why):
    FLIGHT.append((line, answer, why))


def packet(body, answer, why):
    """A packet with a right CRC, and its answer: bytes before the CRC, or None."""
    say('P' + spelled(checked(body)), 'P -' if answer is None else 'P' + spelled(checked(answer)), why)


def asked(code, body, answer, why):
    packet([code, 0x01] + body, [code, 0x01] + answer, why)


def done(code, body, why):
    packet([code, 0x01] + body, [code, 0x01, 0x7E], why)


def failed(code, body, error, why):
    packet([code, 0x01] + body, [code, 0x09, error], why)


def acknowledged(code, why):
    packet([code, 0x01, 0x7E], None, why)


def fields(mode, flags, seconds, milliseconds, priority, priority_left, memory, memory_left, poll):
    time = seconds << 10 | milliseconds
    return ([mode] + number(flags, 2) + number(time, 4) + number(priority, 2) + number(priority_left, 2)
            + number(memory, 4) + number(memory_left, 4) + number(poll, 2))


def status(mode, flags, priority, ordinary, ids):
    return [mode] + number(flags, 2) + number(priority, 2) + number(ordinary, 4) + [0] + ids + [0] * (8 - len(ids))


def written(ident, value):
    return [ident] + number(value, 4)


def words(letter, values, why):
    for k, v in enumerate(values):
        say('%s %04X' % (letter, v), letter, why if k == 0 else '')


def reads(values, why):
    for k, v in enumerate(values):
        say('R', 'R %04X' % v, why if k == 0 else '')


def message_error(yes, why):
    say('S', 'S %04X' % (2 if yes else 0), why)


def frame_bytes(means, check, timeouts=0, gathered=False, initialised=True, dropped=0, hand=False):
    """AN03 and AN47: channels 1 to 3 and 5 to 7, low byte, then bits 9 and 8."""
    three = [timeouts << 4 | dropped, 0]
    for channel in (1, 2, 3):
        three += [means[channel] & 255, means[channel] >> 8]
    three[3] |= 0x80 if gathered else 0
    three[5] |= (0x80 if hand else 0) | (0x04 if initialised else 0)
    three[7] |= check << 2
    seven = [0, 0]
    for channel in (5, 6, 7):
        seven += [means[channel] & 255, means[channel] >> 8]
    return three + seven


def survey(check, why, **state):
    """Channel c of pass p reads 64 c + p: the mean is 64 c + 7.5, rounded down."""
    samples = [64 * c + p for p in range(16) for c in range(8)]
    means = [64 * c + 7 for c in range(8)]
    say('A %02X' % check + spelled(samples, 4), 'A' + spelled(frame_bytes(means, check, **state)), why)


LOAD5, READ5, READ5_ONE, ADDRESS, STOP = 0x0A08, 0xCA08, 0xCA04, 0x8201, 0x8000
RANGES = [0x0C80, 0x1900, 0x2580, 0x3200, 0x3E80]
ASKED = [1, 2, 3, 6, 7]
BLOCK = list(range(256))
FIELD = [[16 * k + 1] * 256 for k in range(1, 4)]

# before the client
failed(0x91, [], 0x38, 'Status while not initialised')
message_error(False, 'the status word is answered all the same')
say('C 8000', 'C', 'stop while not initialised: any command word is an error then')
message_error(True, 'and sets message error')
message_error(False, 'which reading has cleared')
say('B p' + spelled(BLOCK), 'B !6', 'the camera is early: a block while not initialised')
say('B p 00', 'B !4', 'a block of one byte: the lower number decides')

# initialise
done(0x90, fields(1, 3, 22320, 250, 4, 4, 100, 2, 1000), 'Initialise: mode 1, flags 3, 06:12:00.250, memory remaining 2')
asked(0x91, [], status(1, 3, 0, 0, ASKED), 'Status: nothing waits, and parameters 1, 2, 3, 6 and 7 are asked for')
acknowledged(0x91, 'the aircraft acknowledges the Status')

# parameters
done(0x93, written(1, -1500), 'span low -15.00 C')
done(0x93, written(2, 4000), 'span high 40.00 C')
failed(0x93, written(1, 4000), 0x39, 'span low 40.00 C would not be below span high')
failed(0x93, written(13, 0), 0x39, 'there is no parameter 13')
done(0x93, written(3, 980), 'emissivity 0.980')
done(0x93, written(6, -500), 'reflected -5.00 C')
done(0x93, written(7, 2), 'lens 2')
asked(0x94, [1], written(1, -1500), 'parameter 1 read back: the refused write left it')
acknowledged(0x94, 'acknowledged')
asked(0x91, [], status(1, 3, 0, 0, []), 'Status: no parameter is asked for any more')
say('D', 'D', '2 ms pass without an acknowledgement')

# the range table
words('C', [LOAD5], 'load table 5, N 8: three header words and five of data')
words('W', [5, 16, 5] + RANGES, 'command number, address 16, count 5, and the data')
message_error(False, 'taken')
words('C', [ADDRESS], 'the next read address')
words('W', [16], '16')
words('C', [READ5], 'read table 5, N 8')
reads([5, 16, 5] + RANGES, 'the same header and the same data')
reads([0], 'one word too many reads as 0')
message_error(True, 'and sets message error')

# a cut load
words('C', [LOAD5], 'another load of table 5')
words('W', [5, 32, 5, 0xFFFF], 'cut after its first data word')
words('C', [STOP], 'stop')
message_error(True, 'a transfer closed before its last word')
words('C', [ADDRESS], 'the next read address')
words('W', [32], '32')
words('C', [READ5_ONE], 'read one word')
reads([5, 32, 1, 0], 'the cut load left nothing')

# blocks
say('B p' + spelled(BLOCK), 'B', 'a priority block: the bytes 00 to FF')
for k, block in enumerate(FIELD):
    say('B o' + spelled(block), 'B', 'three ordinary blocks, of 11, 21 and 31' if k == 0 else '')
asked(0x91, [], status(1, 3, 1, 3, []), 'Status: one and three wait')
acknowledged(0x91, 'acknowledged')
asked(0x95, [], BLOCK, 'the priority block is sent')
say('P 95 01 7E 00 00', 'P' + spelled(checked([0x95, 0x09, 0x01])), 'its acknowledgement comes damaged: answered 0x01, the exchange is closed, the block kept')
asked(0x95, [], BLOCK, 'so it is sent again')
acknowledged(0x95, 'and acknowledged: dropped')
failed(0x95, [], 0x3A, 'no priority block waits')
asked(0x96, [], FIELD[0], 'the oldest ordinary block')
say('D', 'D', 'the deadline passes')
acknowledged(0x96, 'an acknowledgement too late drops nothing')
asked(0x96, [], FIELD[0], 'the same block again')
acknowledged(0x96, 'dropped, memory remaining 1')
asked(0x96, [], FIELD[1], 'the second')
acknowledged(0x90, 'marked 0x90, as the packet paper has it: dropped too, memory remaining 0')
failed(0x96, [], 0x3B, 'the third waits, but no memory remains')
done(0x92, fields(1, 3, 22500, 0, 4, 3, 100, 10, 1000), 'Update: memory remaining 10; blocks and parameters stay')
asked(0x96, [], FIELD[2], 'the third')
acknowledged(0x96, 'dropped')

# frames and the pipe
survey(0x0B, 'a sample set, self-check number 11: sixteen passes of eight channels, channel c at 64 c + 7.5')
say('A 0B' + spelled([0] * 127 + [1024], 4), 'A !5', 'a sample over 1,023')
say('A 0B' + spelled([1, 2, 3], 4), 'A !4', 'three samples are no set')
for k, b in enumerate(b'DAWN'):
    say('I %02X' % b, 'I -', 'four bytes gather' if k == 0 else '')
survey(0x00, 'while they do, 3.7 is 1', gathered=True)
say('T', 'T' + spelled(b'DAWN'), 'the timeout sends a short packet')
say('T', 'T -', 'with none gathered it does nothing')
survey(0x1F, 'one timeout in 0.7-4; self-check number 31', timeouts=1)
for k, b in enumerate(b'EIGHTY C'):
    say('I %02X' % b, 'I' + spelled(b'EIGHTY C') if k == 7 else 'I -', 'the eighth byte sends all eight' if k == 7 else '')

# packets for the camera
say('O' + spelled(b'SHUTTER'), 'O !22', 'a packet for the camera has eight bytes')
say('O' + spelled(b'SHUTTER1'), 'O 53', 'its first byte is in hand')
say('O' + spelled(b'SHUTTER2'), 'O !21', 'a second one while it is handed over')
survey(0x00, 'output busy: 5.7 is 1; the timeout before it is still in 0.7-4', timeouts=1, hand=True)
for k, b in enumerate(b'HUTTER1'):
    say('K', 'K %02X' % b, 'the camera takes it, and the next is in hand' if k == 0 else '')
say('K', 'K -', 'the last one taken')
say('K', 'K -', 'with nothing in hand nothing happens')
say('O' + spelled(b'SHUTTER2'), 'O 53', 'now the second one')
say('K', 'K 48', 'one byte of it is taken')
say('T', 'T -', 'the camera stops: the rest is dropped; of the input nothing is gathered, so nothing is sent')
say('K', 'K -', 'nothing is in hand')
say('T', 'T -', 'and nothing more is counted')
survey(0x00, 'one output timeout in 0.3-0, beside the one in 0.7-4', timeouts=1, dropped=1)

# a damaged packet, other lines
say('P 93 01 04 00 00 03 E8 00 00', 'P' + spelled(checked([0x93, 0x09, 0x01])), 'a parameter write damaged on the way')
say('P 93 01 04 00 00 03 e8 00 00', '?', 'small letters are no digits')
say('', '?', 'an empty line')

# shutdown
say('O' + spelled(b'STANDBY1'), 'O 53', 'a packet for the camera')
words('C', [LOAD5], 'a load is open')
words('W', [5], '')
done(0x9F, [], 'Shutdown: not initialised, and the load is closed')
message_error(True, 'which sets message error')
failed(0x91, [], 0x38, 'Status is refused')
say('I 00', 'I !6', 'and so is a pipe byte')
say('K', 'K !6', 'a byte taken')
say('O' + spelled(b'STANDBY'), 'O !22', 'a packet for the camera of seven bytes, by its length first')
say('O' + spelled(b'STANDBY2'), 'O !6', 'and one of eight')
survey(0x00, 'the frames show what Shutdown kept: both counts, and a packet in hand; 5.2 is 0', timeouts=1, dropped=1, hand=True, initialised=False)

# the next client
done(0x90, fields(2, 0, 25200, 0, 8, 8, 50, 50, 2000), 'the next client: mode 2, flags 0, 07:00:00.000')
asked(0x91, [], status(2, 0, 0, 0, ASKED), 'no block of the last hire, and every asked parameter is asked for again')
acknowledged(0x91, 'acknowledged')
asked(0x94, [1], written(1, -2000), 'span low at its start, -20.00 C')
acknowledged(0x94, 'acknowledged')
words('C', [ADDRESS], 'the next read address')
words('W', [16], '16')
words('C', [READ5], 'read table 5, N 8')
reads([5, 16, 5] + [0] * 5, 'the table at its start')
say('K', 'K -', 'nothing of the last hire is in hand')
survey(0x00, 'no timeout of the last hire')

# power
say('Z', 'Z', 'power off and on')
failed(0x91, [], 0x38, 'not initialised')
message_error(False, 'no message error')


def short(text):
    return text if len(text) <= 60 else text[:44] + ' .. ' + text[-11:]


def cell(text, name, number):
    """A line of the table, whole or by its name."""
    if len(text) <= LONG:
        return '`%s`' % text if text else 'an empty line'
    return '`%s..` (`%s%s` line %d)' % (text[:10], STORED, name, number)


def page(held):
    """The page with today's table at its end."""
    rows = ['| %s | %s | %s |\n' % (cell(line, 'stdin', k), cell(answer, 'stdout', k), why)
            for k, (line, answer, why) in enumerate(FLIGHT, 1)]
    return held.split(HEAD)[0] + HEAD + ''.join(rows)


def differs(name, held, text):
    """Says where a file is not what it should be."""
    if held == text:
        return 0
    for k, (a, b) in enumerate(zip(held.split('\n'), text.split('\n'))):
        if a != b:
            print('%s, line %d: %s where the flight has %s' % (name, k + 1, short(a), short(b)))
            return 1
    print('%s: other lines than the flight' % name)
    return 1


def main():
    texts = {STORED + 'stdin': ''.join(line + '\n' for line, _, _ in FLIGHT),
             STORED + 'stdout': ''.join(answer + '\n' for _, answer, _ in FLIGHT)}
    bad = 0
    for name in list(texts) + [PAGE]:
        path = os.path.join(TOP, name)
        with open(path) as f:
            held = f.read()
        text = texts.get(name) or page(held)
        if '--write' in sys.argv:
            with open(path, 'w') as f:
                f.write(text)
            held = text
        bad |= differs(name, held, text)
    print('dawn flight: %d lines, %s' % (len(FLIGHT), 'DIFFERENT' if bad else 'as stored'))
    return bad


sys.exit(main())

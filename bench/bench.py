#!/usr/bin/env python3
"""Measures the native replay program: what a key costs, at several lengths of the line and on short lines.

Each workload runs two scripts, the setup alone and the setup with the keys, in turn. The difference of what they cost over the
number of keys is the cost of a key, so that starting, reading the script and the setup don't count. It is counted in nanoseconds
of processor time, or in the instructions that callgrind counts. The median of several rounds is printed, and beside it the growth
from the length before.
"""
import argparse
import os
import re
import shutil
import statistics
import subprocess
import sys
import tempfile

HERE = os.path.dirname(os.path.abspath(__file__))
CRATE = os.path.join(HERE, '..', 'crates', 'replay')
PROGRAM = os.path.join(CRATE, 'out', 'replay')

PLAIN = 'the quick brown fox jumps over the lazy dog '
WIDE = '漢字 かな 混じり文 größer 👍 é '
# 9,999 is the greatest count that a person can type
MOST = 9999


def text_of(length, source=PLAIN):
    """Text of at most so many bytes, in whole characters."""
    whole = (source * (length // len(source.encode()) + 1)).encode()
    return whole[:length].decode(errors='ignore')


def forward(characters):
    """Lines that take the cursor so many characters on."""
    lines = []
    while characters > 0:
        count = min(characters, MOST)
        digits = str(count)
        lines.append(f'key M-{digits[0]}')
        if digits[1:]:
            lines.append(f'type {digits[1:]}')
        lines.append('key C-f')
        characters -= count
    return lines


def keys_in(lines):
    """How many keys the lines type."""
    return sum(len(line.split(' ', 1)[1].replace('\\n', 'n')) if line.startswith('type ') else 1 for line in lines)


def repeated(lines, keys):
    """The lines, as often as gives about so many keys, and how many these are."""
    times = max(1, keys // keys_in(lines))
    return lines * times, keys_in(lines) * times


def in_the_middle(text):
    """The text with the cursor in its middle, away from the edges of the row."""
    return [f'paste {text}', 'key C-a', *forward(len(text) // 2 + 50)]


EDITS = ['type ab', 'key Left', 'type c', 'key Right', 'key Backspace', 'key Delete', 'key C-t', 'key M-b', 'key C-d', 'type z']


def typing(length, keys):
    lines = ['type some words', *['key Backspace'] * 10]
    return ['columns 1000', f'paste {text_of(length)}'], *repeated(lines, keys * 10)


def typing_lines(length, keys):
    lines = '\\n'.join([text_of(79)] * (length // 80))
    return ['columns 100', f'paste {lines}\\n'], *repeated(['type ' + text_of(79) + '\\n'], keys // 20)


def moving(length, keys):
    return ['columns 1000', *in_the_middle(text_of(length))], *repeated(['key Left'] * 9 + ['key Right'] * 9, keys * 10)


def editing(length, keys):
    return in_the_middle(text_of(length)), *repeated(EDITS, keys // 20)


def killing(length, keys):
    kills = ['key M-Backspace', 'key C-y', 'key C-a', 'key M-d', 'key C-y', 'key C-e']
    return [f'paste {text_of(length)}'], *repeated(kills, keys // 20)


def undoing(length, keys):
    steps = max(1, keys // 20)
    return [f'paste {text_of(length)}', *['type x', 'key Left'] * steps], ['key C-_'] * steps, steps


def history(length, keys):
    lines = [f'history {text_of(length)} {number}' for number in range(90)]
    return lines, *repeated(['key Up'] * 80 + ['key Down'] * 80, keys // 20)


def hinting(length, keys):
    lines = ['hints', *(f'history {number} {text_of(length)}' for number in range(90))]
    return lines, *repeated(['type 45 the quick', 'key C-u'], keys // 20)


def vi(length, keys):
    phrases = ['type 05w2dwPrX3h']
    return ['mode vi', f'paste {text_of(length)}', 'key Esc', 'type 0'], *repeated(phrases, keys // 20)


def pasting(length, keys):
    pastes = [f'paste {text_of(length)}', 'key C-u']
    times = max(1, keys // length)
    return [], pastes * times, times * length


def wide(length, keys):
    return in_the_middle(text_of(length, WIDE)), *repeated(EDITS, keys // 20)


def typed_lines(keys):
    return ['columns 100'], *repeated(['type ' + text_of(80), 'key C-u'], keys)


def killed_words(keys):
    lines = ['type one two three', 'key M-Backspace', 'key C-y', 'key C-a', 'key M-d', 'key C-e', 'key C-y', 'key M-y', 'key C-a',
             'key C-k', 'key C-y', 'key C-u']
    return ['columns 100'], *repeated(lines, keys)


def vi_commands(keys):
    lines = ['type ccone two three four five six seven', 'key Esc', 'type 02dw.2w3x.0fe;D02x', 'type cwnew', 'key Esc', 'type P2.0']
    return ['mode vi', 'key Esc'], *repeated(lines, keys)


def wide_lines(keys):
    lines = ['type 漢字かな混じり文é👍größe', 'key Left', 'key Left', 'key Delete', 'type 字', 'key C-a', 'key C-f', 'key C-f',
             'key C-t', 'key C-e', 'key Backspace', 'key M-Backspace', 'key C-u']
    return [], *repeated(lines, keys)


def entries(count):
    """Lines of the history, no two of them alike."""
    return [f'history command number {number} --flag {number * 7919 % 1000}' for number in range(count)]


def added_entries(keys):
    count = max(10, keys // 2)
    return [], entries(count), count


def walked_entries(keys):
    return entries(10000), *repeated(['key Up'] * 90 + ['key Down'] * 90, keys)


SHORT = [
    ('short typing', typed_lines, 'a line of 80 characters, typed and killed'),
    ('short killing', killed_words, 'words killed and yanked'),
    ('short vi', vi_commands, 'commands of the Vi style'),
    ('short wide', wide_lines, 'wide characters and letters past ASCII'),
    ('adding', added_entries, 'entries of the history, each a line of the script'),
    ('walking', walked_entries, 'entries of a full history, one by one'),
]

WORKLOADS = [
    ('typing', typing, 'characters and Backspace at the end of a line'),
    ('typing lines', typing_lines, 'characters and newlines at the end of many lines'),
    ('moving', moving, 'Left and Right in the middle of a line'),
    ('editing', editing, 'characters put in and taken away in the middle'),
    ('killing', killing, 'words killed and yanked'),
    ('undoing', undoing, 'characters in the middle, taken back'),
    ('history', history, 'lines of the history, one by one'),
    ('hinting', hinting, 'characters with a hint behind them'),
    ('vi', vi, 'commands of the Vi style'),
    ('pasting', pasting, 'bytes of a pasted text'),
    ('wide', wide, 'editing, with wide characters and letters past ASCII'),
]


def run(program, script):
    """The CPU seconds of one run of a script."""
    process = subprocess.Popen([program], stdin=open(script, 'rb'), stdout=subprocess.DEVNULL)
    _, status, used = os.wait4(process.pid, 0)
    process.returncode = os.waitstatus_to_exitcode(status)
    if process.returncode != 1:
        sys.exit(f'the script ended with status {process.returncode}, not at its end')
    return used.ru_utime + used.ru_stime


def instructions(program, script):
    """The instructions of one run of a script."""
    command = ['valgrind', '--tool=callgrind', '--callgrind-out-file=/dev/null', program]
    done = subprocess.run(command, stdin=open(script, 'rb'), stdout=subprocess.DEVNULL, stderr=subprocess.PIPE)
    found = re.search(rb'Collected : (\d+)', done.stderr)
    if not found:
        sys.exit('valgrind could not count: ' + done.stderr.decode(errors='replace'))
    return int(found.group(1))


def nanoseconds(program, script):
    """The nanoseconds of processor time of one run of a script."""
    return run(program, script) * 1e9


def measure(program, folder, scripts, cost, rounds):
    """What a key costs."""
    setup, work, count = scripts
    paths = [os.path.join(folder, name) for name in ('setup', 'whole')]
    for path, lines in zip(paths, (setup, setup + work)):
        with open(path, 'w', encoding='utf-8') as script:
            script.write(''.join(line + '\n' for line in lines))
    costs = []
    for _ in range(rounds):
        before, after = (cost(program, path) for path in paths)
        costs.append((after - before) / count)
    return statistics.median(costs)


def build():
    """Proves and builds the native program, where it is not there or the sources changed."""
    subprocess.run(['rt', 'run'], cwd=CRATE, stdin=subprocess.DEVNULL, stdout=subprocess.DEVNULL, check=False)
    if not os.path.exists(PROGRAM):
        sys.exit('the program could not be built: see rt run in crates/replay')


def main():
    arguments = argparse.ArgumentParser(description=__doc__, formatter_class=argparse.RawDescriptionHelpFormatter)
    arguments.add_argument('--program', help='a native program that is built already')
    arguments.add_argument('--only', help='some workloads, separated by commas')
    arguments.add_argument('--lengths', default='1000,10000,100000', help='the lengths in bytes, separated by commas')
    arguments.add_argument('--keys', type=int, default=20000, help='from this the number of keys of each script comes')
    arguments.add_argument('--rounds', type=int, default=5)
    arguments.add_argument('--clock', choices=['time', 'instructions'], default='time',
                           help='instructions: those that callgrind counts, in one round, since each is the same (needs valgrind)')
    options = arguments.parse_args()
    if options.clock == 'instructions' and not shutil.which('valgrind'):
        sys.exit('valgrind is missing')
    if not options.program:
        build()
    program = options.program or PROGRAM
    lengths = [int(length) for length in options.lengths.split(',')]
    cost = instructions if options.clock == 'instructions' else nanoseconds
    rounds = 1 if options.clock == 'instructions' else options.rounds
    only = options.only.split(',') if options.only else None
    unit = 'instructions' if options.clock == 'instructions' else 'ns'
    print(f'{unit + " a key":20}' + ''.join(f'{length:>12,}{"":8}' for length in lengths))
    with tempfile.TemporaryDirectory() as folder:
        for name, workload, what in WORKLOADS:
            if only and name not in only:
                continue
            line, before = f'{name:20}', None
            for length in lengths:
                spent = measure(program, folder, workload(length, options.keys), cost, rounds)
                growth = f'x{spent / before:.1f}' if before else ''
                line += f'{spent:>12,.0f}{growth:>8}'
                before = spent
            print(f'{line}  {what}', flush=True)
        for name, workload, what in SHORT:
            if only and name not in only:
                continue
            spent = measure(program, folder, workload(options.keys), cost, rounds)
            print(f'{name:20}{spent:>12,.0f}{"":8}  {what}', flush=True)


if __name__ == '__main__':
    main()

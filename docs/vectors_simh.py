#!/usr/bin/env python3
"""Reads test vectors from standard input, makes each step on SIMH's vax780 by DEPOSIT, STEP 1 and EXAMINE, and counts which agree.

Use: docs/vectors_simh.py [PROGRAM] <VECTORS

Each vector has physical memory of its own: its pages, a system page table of 1200 (hexadecimal) entries, and process page tables in system space where this
machine has them. Vectors that end absent, by a part, or with the run are passed over, and those with the clock on or with an interrupt that is due: SIMH makes
the delivery and the handler's first instruction in one step. Those whose step delivers a trap are passed over too: SIMH delivers it with the next step."""
import collections
import json
import os
import re
import subprocess
import sys
import tempfile

SIM = sys.argv[1] if len(sys.argv) > 1 else 'vax780'
ROOM = 0x10000      # physical bytes for each vector: 64 KB
BATCH = 110
TABLES = 0x401000   # the page from which process page tables lie

def level(first):
    top = max([k for k in range(16) if first['sisr'] >> k & 1], default=0)
    return top > (first['psl'] >> 16 & 31)

def commands(vector, base):
    """The lines that set up a vector in the physical memory from base on, and where its pages lie."""
    first = vector['initial']
    lines, frames = ['reset tlb'], {}
    spt = base                      # 1200h * 4 = 4800h bytes
    tables = base + 0x4800          # process page tables: two pages
    place = base + 0x5400
    for page, _ in first['pages']:
        frames[page] = place
        place += 512
    put = lambda a, v: lines.append('d -l %X %X' % (a, v))
    pte = lambda page, prot: 0x84000000 | prot << 27 | frames[page] >> 9
    p1 = min([page for page, _ in first['pages'] if 0x40000000 <= page < 0x80000000])
    for page, prot in first['pages']:
        number = page >> 9
        if page >= 0x80000000: put(spt + 4 * (number - 0x400000), pte(page, prot))
        elif page < 0x40000000: put(tables + 4 * number, pte(page, prot))
        else: put(tables + 0x200 + 4 * (number - (p1 >> 9)), pte(page, prot))
    for k in range(5): put(spt + 4 * (TABLES + k - 0x400000), 0x84000000 | 2 << 27 | (tables >> 9) + k)
    for addr, byte in first['ram']:
        page = addr & ~511
        if page in frames: lines.append('d -b %X %X' % (frames[page] + (addr & 511), byte))
    told = {addr for addr, _ in first['ram']}
    for offset in range(0, 0x100, 4):   # where another exception comes, its program counter tells which
        if 0x80000000 + offset not in told: put(frames[0x80000000] + offset, 0x80000600 + offset)
    mode = first['psl'] >> 24 & 3
    for n, value in enumerate(first['regs'][:14]): lines.append('d R%d %X' % (n, value))
    for n, name in enumerate(('KSP', 'ESP', 'SSP', 'USP', 'IS')): lines.append('d %s %X' % (name, first['stacks'][n]))
    lines.append('d %s %X' % (('KSP', 'ESP', 'SSP', 'USP')[mode], first['regs'][14]))
    lines.append('d SP %X' % first['regs'][14])
    lines.append('d PSL %X' % first['psl'])
    lines.append('d CC %X' % (first['psl'] & 15))
    lines.append('d PC %X' % first['regs'][15])
    top = max(page for page, _ in first['pages'] if page < 0x40000000) >> 9
    number = (p1 >> 9) - 0x200000
    for name, value in (('SBR', spt), ('SLR', 0x1200), ('P0BR', 0x80000000 + 512 * (TABLES - 0x400000)), ('P0LR', top + 1),
                        ('P1BR', (0x80000000 + 512 * (TABLES + 1 - 0x400000) - 4 * number) & 0xFFFFFFFF), ('P1LR', number),
                        ('SCBB', frames[0x80000000]), ('SISR', first['sisr']), ('TRPIRQ', 0), ('MAPEN', 1)):
        lines.append('d %s %X' % (name, value))
    lines += ['echo VECTOR', 'step 1', 'examine state']
    for addr, _ in vector['final']['ram']:
        if addr & ~511 in frames: lines.append('examine -b %X' % (frames[addr & ~511] + (addr & 511)))
    return lines, frames

def run(batch):
    lines, all_frames = ['set console notelnet'], []
    for k, vector in enumerate(batch):
        more, frames = commands(vector, 0x10000 + k * ROOM)
        lines += more
        all_frames.append(frames)
    lines.append('quit')
    path = tempfile.mktemp(suffix='.ini', dir='/dev/shm')
    with open(path, 'w') as f: f.write('\n'.join(lines) + '\n')
    out = subprocess.run([SIM, path], capture_output=True, text=True, errors='replace', timeout=300, stdin=subprocess.DEVNULL).stdout
    os.remove(path)
    parts = re.split(r'^VECTOR\s*$', out, flags=re.M)[1:]
    return parts, all_frames

def state(part):
    found, mem = {}, {}
    for line in part.splitlines():
        m = re.match(r'^([A-Z0-9\[\]]+):\s+([0-9A-F]+)$', line.strip())
        if not m: continue
        if m.group(1) in found or re.match(r'^[0-9A-F]+$', m.group(1)) and m.group(1) not in ('CC',) and 'MAPEN' in found: mem[int(m.group(1), 16)] = int(m.group(2), 16)
        else: found[m.group(1)] = int(m.group(2), 16)
    return found, mem

STRINGS = 'MOVC3 MOVC5 MOVTC MOVTUC CMPC3 CMPC5 LOCC SKPC SCANC SPANC MATCHC'.split()

def pushed(vector):
    """The vector of the exception that the step delivered, and the places of its parameters, the reason's first."""
    scb = [(a - 0x80000000, k) for k, (way, a, n, _) in enumerate(vector['accesses']) if way == 'r' and 0x80000000 <= a < 0x80000200 and n == 4]
    if not scb: return None, []
    return scb[-1][0], [a for way, a, n, _ in vector['accesses'][scb[-1][1] + 1:] if way == 'w'][::-1]

def cause(vector, found, mem, place, bad):
    """A class of difference."""
    word = vector['name'].split()[0]
    offset, places = pushed(vector)
    if all(b.startswith('byte') for b in bad):
        got = lambda a: sum((mem.get(place[a & ~511] + (a & 511), 0) if a & ~511 in place else 0) << 8 * k for k, a in enumerate(range(a, a + 4)))
        told = dict(map(tuple, vector['final']['ram']))
        ours = lambda a: sum(told.get(a + k, 0) << 8 * k for k in range(4))
        if offset == 0x20 and len(places) >= 4:
            parts = [name for name, a in zip(('reason', 'address', 'PC', 'PSL'), places) if got(a) != ours(a)]
            if parts == ['reason'] and got(places[0]) ^ ours(places[0]) == 4: return 'a violation: the reason tells an intent to modify'
            if parts == ['address']: return 'a violation: the address, %s' % ('of the reference for that of its first byte that violates' if got(places[1]) < ours(places[1]) < got(places[1]) + 8 else 'another')
            return 'a violation: ' + ' and '.join(parts)
        return 'bytes'
    if word in STRINGS: return 'a string is left where it violates'
    if 0x80000600 <= found.get('PC', 0) < 0x80000700: return 'another exception comes first (%02X for %s)' % (found['PC'] - 0x80000600, 'none' if offset is None else '%02X' % offset)
    if vector['name'].endswith('reserved'): return 'a form of operand that is reserved here'
    if word in ('MFPR', 'MTPR'): return 'a processor register'
    if word in ('BISPSW', 'BICPSW', 'REI', 'RET'): return 'bits of the status'
    return 'other'

def main():
    batch, passed = [], collections.Counter()
    done, agree, marked, differ = 0, 0, 0, collections.defaultdict(list)
    def flush():
        nonlocal done, agree, marked
        parts, frames = run(batch)
        for vector, part, place in zip(batch, parts, frames):
            found, mem = state(part)
            last = vector['final']
            done += 1
            bad = []
            if found.get('TRPIRQ'):
                passed['a trap is pending'] += 1
                done -= 1
                continue
            regs = [found.get('R%d' % n) for n in range(14)] + [found.get('SP'), found.get('PC')]
            for n in range(16):
                if regs[n] != last['regs'][n]: bad.append('R%d %s for %X' % (n, regs[n] if regs[n] is None else '%X' % regs[n], last['regs'][n]))
            psl = (found.get('PSL', 0) & ~15) | found.get('CC', 0)
            if psl != last['psl']: bad.append('PSL %08X for %08X' % (psl, last['psl']))
            current = 4 if last['psl'] >> 26 & 1 else last['psl'] >> 24 & 3
            for n, name in enumerate(('KSP', 'ESP', 'SSP', 'USP', 'IS')):
                if n != current and found.get(name) != last['stacks'][n]: bad.append(name)
            for addr, byte in last['ram']:
                if addr & ~511 in place and mem.get(place[addr & ~511] + (addr & 511)) != byte: bad.append('byte %X' % addr)
            if bad: differ[vector['name'].split()[0]].append((vector['name'], bad, found, cause(vector, found, mem, place, bad), vector['profile']))
            else:
                agree += 1
                marked += vector['profile']
        batch.clear()
    for line in sys.stdin:
        vector = json.loads(line)
        first = vector['initial']
        if first['absent']: passed['absent'] += 1
        elif vector['ends'][0] != 'step': passed[vector['ends'][0]] += 1
        elif first['iccs'] or first['clock']: passed['clock'] += 1
        elif level(first): passed['interrupt'] += 1
        elif len(vector['ends']) > 1: passed['console'] += 1
        else: batch.append(vector)
        if len(batch) == BATCH: flush()
    if batch: flush()
    why = collections.Counter()
    for name, all_of in differ.items():
        for text, bad, _, kind, profile in all_of: why[kind, profile] += 1
    print('made', done, 'agree', agree, 'of them by choice', marked, 'differ', done - agree, 'passed over', dict(passed))
    for (text, profile), n in sorted(why.items(), key=lambda kind: -kind[1]): print('   ', n, text, '(by choice)' if profile else '(NOT marked as a choice)')
    for name in sorted(differ, key=lambda n: -len(differ[n])):
        print(name, len(differ[name]), differ[name][0][3], '|', *differ[name][0][1][:4], '|', differ[name][0][0])

main()

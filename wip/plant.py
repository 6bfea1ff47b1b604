#!/usr/bin/env python3
"""Plants bugs one at a time in src/ of a crate of /work/hp and records whether `rt dev` refuses them.

usage: plant.py LIST.py [LABEL ..]     LIST.py defines BUGS = [(crate, label, file, old, new), ..]
Writes /tmp/hp-plants/CRATE-LABEL.log and a line of /tmp/hp-plants/results.tsv for each.
"""
import os, re, subprocess, sys, time, runpy

ROOT = '/work/hp'
OUT = '/tmp/hp-plants'

def first_complaint(log):
    for l in log.splitlines():
        m = re.search(r'(/work/hp/)?(crates/\S+?\.(rt|antt):\d+(:\d+)?)', l)
        if re.search(r'error|not proved|no proof|unknown|mismatch|refused', l) and not l.startswith('logic='):
            return l.strip()
    return ''

def run(bug):
    crate, label, file, old, new = bug
    path = f'{ROOT}/crates/{crate}/{file}'
    original = open(path).read()
    n = original.count(old)
    if n != 1:
        return f'{crate}\t{label}\tBADEDIT\told stands {n} times'
    t = time.time()
    try:
        open(path, 'w').write(original.replace(old, new))
        p = subprocess.run(['rt', 'dev', crate], cwd=ROOT, stdout=subprocess.PIPE, stderr=subprocess.STDOUT, text=True)
    finally:
        open(path, 'w').write(original)
    log = p.stdout
    open(f'{OUT}/{crate}-{label}.log', 'w').write(log)
    if 'logic=proved' in log and p.returncode == 0:
        verdict = 'PASSED'
    elif 'logic=not-proved' in log:
        verdict = 'REFUSED'
    else:
        verdict = 'NOLOGIC'
    return f'{crate}\t{label}\t{verdict}\t{time.time()-t:.0f}s\t{first_complaint(log)[:230]}'

bugs = runpy.run_path(sys.argv[1])['BUGS']
want = set(sys.argv[2:])
for b in bugs:
    if want and b[1] not in want:
        continue
    r = run(b)
    print(r, flush=True)
    with open(f'{OUT}/results.tsv', 'a') as f:
        f.write(r + '\n')

#!/bin/bash
# Runs `rt ci` with the words that it is given, and prints what each crate's proof, tests and edits took
# in seconds of a processor, with the time of the whole by the clock. The log of `rt ci` has no times, so
# the prover's processes are looked at twice a second. What earlier runs keep on the machine takes none:
# bench/gate.sh --anew proves and tries all.
set -euo pipefail
cd "$(dirname "$0")/.."
exec python3 - "$@" <<'PYTHON'
import collections, os, subprocess, sys, time

TICKS = os.sysconf('SC_CLK_TCK')
KINDS = ('proof', 'tests', 'edits')

# The parents of all processes, and which of them are the prover's with their crate and kind.
def looked_at():
    parents, provers = {}, {}
    for pid in filter(str.isdigit, os.listdir('/proc')):
        try:
            stat = open(f'/proc/{pid}/stat').read().rsplit(')', 1)[1].split()
            parents[pid] = stat[1]
            words = open(f'/proc/{pid}/cmdline').read().split('\0')
            if os.path.basename(words[0]) != 'rattle' or '--crate-name' not in words:
                continue
            crate = words[words.index('--crate-name') + 1]
            edited = '/rt-edit' in os.readlink(f'/proc/{pid}/cwd')
            kind = 'edits' if edited else 'tests' if f'out/{crate}_tests.o' in words else 'proof'
            provers[pid, stat[19]] = crate, kind, (int(stat[11]) + int(stat[12])) / TICKS
        except (OSError, IndexError):
            continue
    return parents, provers

def is_below(pid, top, parents):
    while pid in parents and pid != top:
        pid = parents[pid]
    return pid == top

began = time.time()
gate = subprocess.Popen(['rt', 'ci', *sys.argv[1:]])
spent = {}
while gate.poll() is None:
    parents, provers = looked_at()
    spent.update({it: found for it, found in provers.items() if is_below(it[0], str(gate.pid), parents)})
    time.sleep(0.5)
rows = collections.defaultdict(lambda: dict.fromkeys(KINDS, 0))
for crate, kind, seconds in spent.values():
    rows[crate][kind] += seconds
print(f"{'crate':20}" + ''.join(f'{kind:>8}' for kind in KINDS) + f"{'all':>8}")
for crate, row in sorted(rows.items(), key=lambda it: -sum(it[1].values())):
    print(f'{crate:20}' + ''.join(f'{row[kind]:8.0f}' for kind in KINDS) + f'{sum(row.values()):8.0f}')
print(f"{'all':20}" + ''.join(f'{sum(row[kind] for row in rows.values()):8.0f}' for kind in KINDS)
    + f'{sum(sum(row.values()) for row in rows.values()):8.0f}')
print(f'{(time.time() - began) / 60:.1f} minutes by the clock')
sys.exit(gate.returncode)
PYTHON

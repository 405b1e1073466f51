"""A unit whose state lies on a disk that is kept busy, and a master with a time-out of 200 ms: what is lost, and how long replies take.

usage: checks/live busy [SECONDS [FOLDER]]     (60, and a folder of target/)
"""
import os
import signal
import statistics
import subprocess
import sys
import tempfile
import time

from live import A, B, ROOT, SAMPLE, UNIT, Unit, Wire, frame, until
from master import Master

LOAD = 7
SCAN = frame(B, UNIT, 0x00, 0x01)
WRITER = 'while :; do dd if=/dev/zero of=dd bs=1M count=64 conv=fsync 2>/dev/null; done'


def tell(folder, lines):
    with open(os.path.join(folder, 'events'), 'w') as events:
        events.write(''.join(line + '\n' for line in lines))


def scan(wire, waited):
    began = time.monotonic()
    if wire.ask(SCAN, 0.2):
        waited.append(time.monotonic() - began)


def serve(unit, folder, seconds):
    """Stores and gathers records for some seconds, with a scan beside each request."""
    wire = Wire(unit.name)
    master, scans, asked, told = Master(wire, A, LOAD, timeout=0.2, pause=0.02), [], 0, 0
    end = time.monotonic() + seconds
    while time.monotonic() < end:
        tell(folder, [f'record {LOAD} 1 {told + i + 1}' for i in range(10)])
        told += 10
        until(lambda: len(unit.log('E')) == told, 120)
        while not (master.poll() and master.empty):
            asked += 1
            scan(wire, scans)
    wire.close()
    stored = {int(line[4]) for line in unit.log('E') if line[-1] == '0'}
    return master, scans, asked, stored


def told_of(what, asked, waited):
    waited = sorted(1000 * seconds for seconds in waited)
    p99 = waited[min(len(waited) - 1, len(waited) * 99 // 100)]
    print(f'{what}: {len(waited)} of {asked} answered; ms to a reply: median {statistics.median(waited):.0f}, p99 {p99:.0f}, most {waited[-1]:.0f}')


def main():
    signal.signal(signal.SIGTERM, lambda *_: sys.exit(1))  # so that nothing is left running
    seconds = float(sys.argv[1]) if len(sys.argv) > 1 else 60
    place = sys.argv[2] if len(sys.argv) > 2 else os.path.join(ROOT, 'target', 'unit2179')
    with tempfile.TemporaryDirectory(prefix='busy-', dir=place) as folder:
        unit = Unit(folder, '--config', SAMPLE, '--state', 'state', '--events', 'events', log=os.path.join('/dev/shm', f'busy-{os.getpid()}'))
        writer = subprocess.Popen(WRITER, shell=True, cwd=folder, start_new_session=True)
        try:
            master, scans, asked, stored = serve(unit, folder, seconds)
        finally:
            os.killpg(writer.pid, signal.SIGTERM)
            writer.wait()
            unit.end()
            os.remove(unit.log_path)
    lost = sorted(stored - set(master.received))
    told_of('history', master.requests, master.waited)
    told_of('scans', asked, scans)
    print(f'{len(stored)} records were stored, {len(lost)} lost{": " if lost else ""}{" ".join(map(str, lost))}')
    sys.exit(1 if lost else 0)


main()

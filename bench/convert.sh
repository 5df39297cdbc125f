#!/usr/bin/env bash
# Wall time and peak memory of `sparqlbye convert --graph` on graphs of 25,000, 250,000 and 1,000,000 triples, beside
# `LC_ALL=C sort -u` and, where they are installed, `serdi | sort -u` and `rapper | sort -u`, with the ratios of the times.
# It only reports. It needs python3.
set -eu
root=$(cd "$(dirname "${BASH_SOURCE[0]}")/.." && pwd)
folder=$(mktemp -d)
trap 'rm -rf "$folder"' EXIT
"$root/sparqlbye" convert --graph "$root/examples/editors.nt" > "$folder/out" # builds the program where that is needed
for people in 10000 100000 400000; do
  "$root/bench/people.sh" "$people" > "$folder/$people.nt"
done
export LC_ALL=C
python3 - "$root/sparqlbye" "$folder" <<'PYTHON'
import os, resource, shutil, subprocess, sys, time

program, folder = sys.argv[1:]
ways = [('sparqlbye convert', lambda graph: [program, 'convert', '--graph', graph], None),
        ('sort -u', lambda graph: ['sort', '-u', graph], None)]
for name in ['serdi', 'rapper']:
    if shutil.which(name):
        words = {'serdi': ['-i', 'ntriples', '-o', 'ntriples'], 'rapper': ['-q', '-i', 'ntriples', '-o', 'ntriples']}[name]
        ways.append((f'{name} | sort -u', lambda graph, words=words, name=name: [name, *words, graph], ['sort', '-u']))


def run(words, then):
    """Seconds, and the greatest peak of the processes in MiB."""
    before = time.monotonic()
    with open(os.path.join(folder, 'out'), 'wb') as out:
        if then is None:
            children = [subprocess.Popen(words, stdout=out)]
        else:
            first = subprocess.Popen(words, stdout=subprocess.PIPE)
            children = [first, subprocess.Popen(then, stdin=first.stdout, stdout=out)]
            first.stdout.close()
        peaks = []
        for child in children:
            _, status, usage = os.wait4(child.pid, 0)
            if status != 0:
                sys.exit(f'{words[0]} failed')
            peaks.append(usage.ru_maxrss)
    return time.monotonic() - before, max(peaks) / 1024


print('| triples | what | seconds | ratio to sparqlbye | peak MiB |')
print('|---|---|---|---|---|')
for people in [10000, 100000, 400000]:
    graph = os.path.join(folder, f'{people}.nt')
    own = None
    for name, words, then in ways:
        seconds, peak = min(run(words(graph), then) for _ in range(3))
        own = own or seconds
        print(f'| {people * 5 // 2:,} | `{name}` | {seconds:.2f} | {seconds / own:.2f} | {peak:.0f} |')
PYTHON

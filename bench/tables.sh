#!/usr/bin/env bash
# Wall time and peak memory of `sparqlbye convert --table` on a table of 100,000 rows of three cells, from TSV to JSON and to CSV
# and from JSON to TSV, beside a plain copy of the document and, where Debian's libapache-jena-java is installed, beside Jena's
# `rset`; then of a JSON document of 60 MB. The cells are as people have them: IRIs, strings with tags, escapes and letters beyond
# ASCII, dates, numbers, booleans, blank nodes, and cells that are empty. It only reports. It needs python3.
set -eu
root=$(cd "$(dirname "${BASH_SOURCE[0]}")/.." && pwd)
folder=$(mktemp -d)
trap 'rm -rf "$folder"' EXIT
"$root/sparqlbye" convert --graph "$root/examples/editors.nt" > "$folder/out" # builds the program where that is needed

# Jena's classes, with one logger. Debian's archive has the messages of its XML library in a folder in which the library does not
# look for them, so they are taken out beside it.
jars=${JENA_JARS:-/usr/share/java}
classes=
if [ -f "$jars/jena-arq.jar" ]; then
  python3 - "$jars/jena-core.jar" "$folder" <<'PYTHON'
import sys, zipfile
archive, folder = sys.argv[1:]
with zipfile.ZipFile(archive) as jar:
    jar.extractall(folder, [name for name in jar.namelist() if name.startswith('org/apache/jena/ext/xerces/')])
PYTHON
  mv "$folder/org/apache/jena/ext/xerces" "$folder/xerces"
  classes=$(find "$jars" -maxdepth 1 -name '*.jar' | grep -vE -- '-[0-9][^/]*$|slf4j-(log4j|jcl|jdk|simple|migrator)|maven3-slf4j|log4j-over|jcl-over|jul-to' | tr '\n' ':')$folder
fi

python3 - "$root/sparqlbye" "$folder" "$classes" <<'PYTHON'
import os, subprocess, sys, time

program, folder, classes = sys.argv[1:]


def row(i):
    names = ['"Person %d of the register"@en', '"a \\"quoted\\" name, number %d"', '"Zo\u00eb %d"@fr', '', '"first line\\nsecond line %d"', '_:b%d']
    born = ['"1%03d-01-02"^^<http://www.w3.org/2001/XMLSchema#date>' % (i % 1000), '%d' % i, '%d.5' % i, 'true', '']
    name = names[0 if i % 10 < 5 else i % 10 - 4]
    return '<http://www.wikidata.org/entity/Q%d>\t%s\t%s\n' % (i * 37 % 1000003, name % i if '%' in name else name, born[i % 5])


def made(name, text):
    path = os.path.join(folder, name)
    with open(path, 'w', encoding='utf-8') as document:
        document.write(text)
    return path


def run(words, out):
    """The status, the seconds and the peak in MiB."""
    before = time.monotonic()
    with open(os.path.join(folder, out), 'wb') as document, open(os.path.join(folder, 'err'), 'wb') as err:
        child = subprocess.Popen(words, stdout=document, stderr=err)
        _, status, usage = os.wait4(child.pid, 0)
    return os.waitstatus_to_exitcode(status), time.monotonic() - before, usage.ru_maxrss / 1024


def best(words, out):
    runs = [run(words, out) for _ in range(3)]
    if any(status != 0 for status, _, _ in runs):
        sys.exit(f'{words[0]} failed')
    return min(runs, key=lambda one: one[1])


def convert(path, source, target):
    return [program, 'convert', '--table', path, '--from', source, '--to', target]


table = made('table.tsv', '?person\t?name\t?born\n' + ''.join(map(row, range(100000))))
if run(convert(table, 'tsv', 'json'), 'table.srj')[0] != 0:
    sys.exit('the table is refused')
print('| document | to | what | seconds | ratio to sparqlbye | peak MiB | peak in documents |')
print('|---|---|---|---|---|---|---|')
for name, source, target in [('table.tsv', 'tsv', 'json'), ('table.tsv', 'tsv', 'csv'), ('table.srj', 'json', 'tsv')]:
    path = os.path.join(folder, name)
    size = os.path.getsize(path) / 1048576
    ways = [('sparqlbye convert', convert(path, source, target)), ('cat', ['cat', path])]
    if classes:
        ways.append(('rset', ['java', '-cp', classes, 'arq.rset', '--in', source, '--out', target, path]))
    own = None
    for way, words in ways:
        _, seconds, peak = best(words, 'out')
        own = own or seconds
        print(f'| {source}, {size:.1f} MiB | {target} | `{way}` | {seconds:.2f} | {seconds / own:.2f} | {peak:.0f} | {peak / size:.1f} |')

binding = '{"person":{"type":"uri","value":"http://www.wikidata.org/entity/Q%d"},"name":{"type":"literal","value":"Person %d of the register","xml:lang":"en"}}'
many = made('many.srj', '{"head":{"vars":["person","name"]},"results":{"bindings":[' + ',\n'.join(binding % (i, i) for i in range(381000)) + ']}}')
size = os.path.getsize(many) / 1048576
status, seconds, peak = run(convert(many, 'json', 'tsv'), 'out')
with open(os.path.join(folder, 'err'), encoding='utf-8') as err:
    line = err.read().strip()
print()
print(f'A JSON document of {size:.1f} MiB: status {status}{", " + line if line else ""}, {seconds:.2f} s, peak {peak:.0f} MiB, {peak / size:.1f} documents.')
PYTHON

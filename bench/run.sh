#!/usr/bin/env bash
# Wall time and peak memory of `sparqlbye run`, beside Jena's `arq` where Debian's libapache-jena-java is installed: queries of
# one group, of three patterns in a bad order, of OPTIONAL groups, two and one in another, over graphs of 10,000, 100,000 and
# 400,000 people, and the same kinds over each graph of N-Triples that is named. `loading` is the time of a query that names a term
# which is in no graph. Then a query whose answers are too many. It only reports. It needs python3.
#
# bench/run.sh [GRAPH..]
set -eu
root=$(cd "$(dirname "${BASH_SOURCE[0]}")/.." && pwd)
folder=$(mktemp -d)
trap 'rm -rf "$folder"' EXIT
"$root/sparqlbye" convert --graph "$root/examples/editors.nt" > "$folder/out" # builds the program where that is needed
for people in ${PEOPLE:-10000 100000 400000}; do
  "$root/bench/people.sh" "$people" > "$folder/people-$people.nt"
done

# Jena's classes, with one logger. Debian's archive has the messages of its XML library in a folder in which the library does not
# look for them, so they are taken out beside it.
jars=${JENA_JARS:-/usr/share/java}
classes=
if [ -f "$jars/jena-arq.jar" ]; then
  python3 - "$jars/jena-core.jar" "$folder" <<'PYTHON'
import sys, zipfile
archive, folder = sys.argv[1:]
with zipfile.ZipFile(archive) as jar:
    jar.extractall(folder, [name for name in jar.namelist() if name.startswith('org/apache/jena/ext/xerces/')])
PYTHON
  mv "$folder/org/apache/jena/ext/xerces" "$folder/xerces"
  classes=$(find "$jars" -maxdepth 1 -name '*.jar' | grep -vE -- '-[0-9][^/]*$|slf4j-(log4j|jcl|jdk|simple|migrator)|maven3-slf4j|log4j-over|jcl-over|jul-to' | tr '\n' ':')$folder
fi

python3 - "$root/sparqlbye" "$folder" "$classes" "$@" <<'PYTHON'
import collections, glob, os, subprocess, sys, time

program, folder, classes, *graphs = sys.argv[1:]
TYPE = '<http://www.w3.org/1999/02/22-rdf-syntax-ns#type>'
TIMES = int(os.environ.get('TIMES', '3'))


def queries(kind, one, two, last):
    """Queries of each kind, of these predicates and of an object that the last of them has."""
    return [
        ('one group', f'SELECT DISTINCT ?x {{ ?x {TYPE} {kind} }}'),
        ('bad order', f'SELECT DISTINCT ?x ?z {{ ?x {one} ?y . ?y {one} ?z . ?z {two} {last} }}'),
        ('OPTIONAL', f'SELECT DISTINCT ?x ?m {{ ?x {TYPE} {kind} OPTIONAL {{ ?x {two} ?m }} }}'),
        ('two OPTIONALs', f'SELECT DISTINCT ?x ?m ?y {{ ?x {TYPE} {kind} OPTIONAL {{ ?x {two} ?m }} OPTIONAL {{ ?x {one} ?y }} }}'),
        ('OPTIONAL in OPTIONAL', f'SELECT DISTINCT ?x ?y ?m {{ ?x {TYPE} {kind} OPTIONAL {{ ?x {one} ?y OPTIONAL {{ ?y {two} ?m }} }} }}'),
    ]


def of_graph(path):
    """The kind that most subjects have, the predicate that leads most often from one subject to another, and the one that leads
    most of these to something else, with an object of it."""
    triples = []
    with open(path, encoding='utf-8') as lines:
        for line in lines:
            parts = line.rstrip().removesuffix('.').rstrip().split(' ', 2)
            if len(parts) == 3 and line[0] in '<_':
                triples.append(parts)
    subjects = {s for s, _, _ in triples}
    kind = collections.Counter(o for _, p, o in triples if p == TYPE).most_common(1)[0][0]
    of_kind = {s for s, p, o in triples if p == TYPE and o == kind}
    links = collections.Counter(p for s, p, o in triples if p != TYPE and s in of_kind and o in subjects)
    one = links.most_common(1)[0][0] if links else TYPE
    ends = {o for s, p, o in triples if p == one and s in of_kind}
    two = collections.Counter(p for s, p, _ in triples if p not in (TYPE, one) and s in ends | of_kind).most_common(1)[0][0]
    last = next(o for s, p, o in triples if p == two)
    return queries(kind, one, two, last)


def run(words, out):
    """The status, the seconds and the peak in MiB."""
    before = time.monotonic()
    with open(os.path.join(folder, out), 'wb') as document, open(os.path.join(folder, 'err'), 'wb') as err:
        child = subprocess.Popen(words, stdout=document, stderr=err)
        _, status, usage = os.wait4(child.pid, 0)
    return os.waitstatus_to_exitcode(status), time.monotonic() - before, usage.ru_maxrss / 1024


def best(words, out):
    runs = [run(words, out) for _ in range(TIMES)]
    if any(status != 0 for status, _, _ in runs):
        sys.exit(f'{words} failed: ' + open(os.path.join(folder, 'err')).read()[:2000])
    return min(runs, key=lambda one: one[1])


def rows(out):
    with open(os.path.join(folder, out), encoding='utf-8') as lines:
        return sum(1 for _ in lines) - 1


def ways(graph, query):
    yield 'sparqlbye', [program, 'run', '--graph', graph, '--query', query]
    if classes:
        yield 'arq', ['java', '-cp', classes, 'arq.arq', '--data', graph, '--query', query, '--results', 'TSV']


def text(name, query):
    path = os.path.join(folder, name)
    with open(path, 'w', encoding='utf-8') as document:
        document.write(query)
    return path


nothing = text('nothing.rq', 'SELECT * { <http://example.org/is/nowhere> ?p ?o }')
people = queries('<http://example.org/Person>', '<http://example.org/knows>', '<http://example.org/mail>', '"m4242"')
cases = [(path, people) for path in sorted(glob.glob(os.path.join(folder, 'people-*.nt')), key=os.path.getsize)]
cases += [(path, of_graph(path)) for path in graphs]
print('| graph | query | answers | by | seconds | of these loading | peak MiB |')
print('|---|---|---|---|---|---|---|')
for graph, asked in cases:
    loading = {name: best(words, 'out')[1] for name, words in ways(graph, nothing)}
    for number, (kind, query) in enumerate(asked):
        counts = {}
        for name, words in ways(graph, text(f'{number}.rq', query)):
            _, seconds, peak = best(words, 'out')
            counts[name] = rows('out')
            print(f'| {os.path.basename(graph)} | {kind} | {counts[name]:,} | `{name}` | {seconds:.2f} | {loading[name]:.2f} | {peak:.0f} |', flush=True)
        if len(set(counts.values())) > 1:
            sys.exit(f'{graph}, {query}: {counts} answers')

graph = cases[-1][0] if not graphs else cases[-1 - len(graphs)][0]
status, seconds, peak = run([program, 'run', '--graph', graph, '--query', text('cross.rq', 'SELECT * { ?a ?p ?b . ?c ?q ?d }')], 'out')
print(f'\nAll pairs of triples of {os.path.basename(graph)}: status {status} in {seconds:.2f} s, of which loading '
      f'{best([program, "run", "--graph", graph, "--query", nothing], "out")[1]:.2f} s, with a peak of {peak:.0f} MiB.')
PYTHON

#!/usr/bin/env bash
# people.sh N: a graph of N people, 2.5 triples each: a type, whom they know, and for every second one a mail address.
set -eu
awk -v people="$1" 'BEGIN {
  type = "<http://www.w3.org/1999/02/22-rdf-syntax-ns#type> <http://example.org/Person> ."
  for (i = 0; i < people; i++) {
    printf "<http://example.org/p%d> %s\n", i, type
    printf "<http://example.org/p%d> <http://example.org/knows> <http://example.org/p%d> .\n", i, (7 * i + 1) % people
    if (i % 2 == 0) printf "<http://example.org/p%d> <http://example.org/mail> \"m%d\" .\n", i, i
  }
}'

#!/bin/bash
# tree.sh SIGNAL PATTERN: sends a signal to the tree of each process that matches
sig=$1; pat=$2
walk() { echo $1; for k in $(pgrep -P $1); do walk $k; done; }
for p in $(pgrep -f "$pat"); do [ $p = $$ ] && continue; for q in $(walk $p); do kill -$sig $q 2>/dev/null; done; done

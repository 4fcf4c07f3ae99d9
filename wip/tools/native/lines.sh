#!/bin/bash
cd /work/prof; b=$1; w=$2; n=$3; rm -f cl.$b.$w cl.$b.$w.*
case $b in plain*) fn=main::session::Session::run_more;; *) fn=cluster_runs::script::run_more;; esac
valgrind --tool=callgrind --dump-instr=yes --callgrind-out-file=cl.$b.$w "--zero-before=$fn" "--dump-after=$fn" ./$b $w $n >/dev/null 2>&1
echo "$b $w"; python3 lines.py cl.$b.$w.2 $4 $5

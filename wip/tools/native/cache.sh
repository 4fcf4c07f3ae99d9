#!/bin/bash
cd /work/prof; b=$1; w=$2; n=$3; rm -f cs.$b.$w cs.$b.$w.*
case $b in plain*) fn=main::session::Session::run_more;; *) fn=cluster_runs::script::run_more;; esac
valgrind --tool=callgrind --cache-sim=yes --branch-sim=yes --callgrind-out-file=cs.$b.$w "--zero-before=$fn" "--dump-after=$fn" ./$b $w $n >/dev/null 2>&1
echo "$b $w"; callgrind_annotate cs.$b.$w.2 2>/dev/null | grep -B3 "PROGRAM TOTALS" | cut -c1-260; grep -h "^events\|^totals\|^summary" cs.$b.$w.2

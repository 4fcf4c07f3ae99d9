#!/bin/bash
# prof.sh BIN WORKLOAD N: instructions of the timed part of a workload, for a program in /work/prof (`plain*` is the plain one, built with
# `rustc --edition 2024 -O -C debuginfo=1`). Then: ann.py cg.BIN.WORKLOAD.2 40 [CALLEE] lists functions by their own instructions, and who calls
# CALLEE. For hot.py (instructions one by one) and mix.py (kinds of instructions) add --dump-instr=yes.
cd /work/prof; b=$1; w=$2; n=$3; rm -f cg.$b.$w cg.$b.$w.*
case $b in plain*) fn=main::session::Session::run_more;; *) fn=cluster_runs::script::run_more;; esac
valgrind --tool=callgrind ${DUMP:-} --callgrind-out-file=cg.$b.$w "--zero-before=$fn" "--dump-after=$fn" ./$b $w $n >/dev/null 2>&1
t=$(callgrind_annotate cg.$b.$w.2 2>/dev/null | grep "PROGRAM TOTALS" | awk '{print $1}')
echo "$b $w $t"

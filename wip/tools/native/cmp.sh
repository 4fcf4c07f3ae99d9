#!/bin/bash
# cmp.sh TURNS WORKLOADS.. -- BINS..: best of TURNS, the programs in turn
cd /work/prof; T=$1; shift; W=(); while [ "$1" != "--" ]; do W+=($1); shift; done; shift; B=("$@")
for w in "${W[@]}"; do declare -A best; for b in "${B[@]}"; do best[$b]=0; done
for i in $(seq $T); do for b in "${B[@]}"; do r=$(./$b $w ${N:-1000} | awk '{print $3}'); [ "$r" -gt "${best[$b]}" ] && best[$b]=$r; done; done
echo -n "$w "; for b in "${B[@]}"; do echo -n "$b ${best[$b]} "; done; echo; done

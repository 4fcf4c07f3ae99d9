#!/bin/bash
# measure.sh ROOT: all figures over ROOT's proved programs, everything else stopped; M turns at a million (5)
R=$1; cd $R
echo madvise > /sys/kernel/mm/transparent_hugepage/enabled
/work/helpers/quiet.sh STOP
trap '/work/helpers/quiet.sh CONT; echo always > /sys/kernel/mm/transparent_hugepage/enabled' EXIT
P=$R/crates/hdfs_bench/out/hdfs_bench; Q=$R/bench/plain/out/plain
A=delete_recursive,delete_each,stat,acl_stat,tick_expired,setfacl,rename_dir,mkdirs,create_complete,append_takeover,script
B=ls,tick_idle,addblock,addblock_complete,open,open_granted,report,heartbeat_idle,step_stat
date; echo "== 1000 tool"; tools/bench-tree 1000
date; echo "== 30000 x5"; python3 -u /work/prof/med.py 30000 5 $A,$B,recovery $P $Q
date; echo "== 100000 x5"; python3 -u /work/prof/med.py 100000 5 $A,$B $P $Q
[ -f $R/crates/hdfsns/out/hdfsns ] && { date; echo "== scripts"; tools/bench-scripts 200000 3; }
date; echo "== 1000000 x5"; python3 -u /work/prof/med.py 1000000 ${M:-5} $A $P $Q
date; python3 -u /work/prof/med.py 1000000 ${M:-5} $B $P $Q
date; echo "== tick again"; python3 -u /work/prof/med.py 1000 41 tick_expired,delete_recursive,delete_each,stat,acl_stat,setfacl,rename_dir,script $P $Q
date

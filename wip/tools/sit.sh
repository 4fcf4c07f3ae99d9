#!/bin/bash
# sit.sh N TURNS W,W BIN..: med.py with all provers stopped and pages of two megabytes only where asked for
echo madvise > /sys/kernel/mm/transparent_hugepage/enabled
/work/helpers/quiet.sh STOP
trap '/work/helpers/quiet.sh CONT; echo always > /sys/kernel/mm/transparent_hugepage/enabled' EXIT
python3 /work/prof/med.py "$@"

#!/bin/bash
# runstop.sh STOP|CONT|KILL RUN : signals all processes whose cwd is within /work/RUN
for p in $(ls /proc | grep -E '^[0-9]+$'); do
  c=$(readlink /proc/$p/cwd 2>/dev/null)
  case "$c" in /work/$2|/work/$2/*) [ $p != $$ ] && kill -$1 $p 2>/dev/null;; esac
done

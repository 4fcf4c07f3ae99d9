#!/bin/bash
# quiet.sh STOP|CONT
for p in $(pgrep -f "rattle|antt-kern|/usr/local/bin/rt |clang|check-rules|helpers/seed"); do
  [ $p = $$ ] && continue
  kill -$1 $p 2>/dev/null
done
exit 0

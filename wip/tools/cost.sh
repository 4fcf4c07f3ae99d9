#!/bin/bash
# cost.sh RUN CRATE [JOBS]: user, system and elapsed seconds, faults and peak memory of a check of the crate from nothing over RUN's libraries
RUN=$1; C=$2; cd $RUN/crates/$C
L=$(grep -E "^$C( [^:]*)?:" $RUN/crates.txt | sed 's/^[^:]*: *//')
X=""
for l in $L; do if [ -d $RUN/crates/$l ]; then X="$X --extern $l=$RUN/crates/$l/out/rlib/$l.rlib"; else X="$X --extern $l=/opt/rattle/rlibs/$l.rlib"; fi; done
for l in $(ls $RUN/crates); do [ -e $RUN/crates/$l/out/rlib/$l.rlib ] && X="$X -L dependency=$RUN/crates/$l/out/rlib"; done
root=src/lib.rt; [ -f src/main.rt ] && root=src/main.rt
D=$(mktemp -d); cp -r $RUN/crates/$C $D/; rm -rf $D/$C/out; cd $D/$C
/usr/bin/time -f '%U user %S sys %e wall %F majfl %R minfl %M KB' /opt/rattle/bin/rattle check --crate-name $C $root --extern std=/opt/rattle/rlibs/std.rlib -L dependency=/opt/rattle/rlibs $X --antt-project /opt/rattle/rattle/logic/antt-project.json --logic-built /opt/rattle/logic_built --links $C= --jobs ${JOBS:-1} ${STAGES:+--stage-times $STAGES} 2>&1 | tail -${TAIL:-2}
rm -rf $D

#!/bin/bash
# timed.sh RUN CRATE DIR [FLAGS..]: rattle check of the crate in DIR over RUN's libraries, with seconds before each line; libraries in /work/look/rlib go before. BUILD=1 builds the crate's library there; TIMES=1 writes what each file took. What it prints is in /tmp/timed_CRATE.txt.
RUN=$1; C=$2; cd $3; shift 3
L=$(grep -E "^$C( [^:]*)?:" ${LIST:-$RUN/crates.txt} | sed 's/^[^:]*: *//')
X=""
at() { if [ -d /work/look/rlib/$1/$1.rlib ]; then echo /work/look/rlib/$1/$1.rlib; else echo $RUN/crates/$1/out/rlib/$1.rlib; fi; }
for l in $L; do if [ -d $RUN/crates/$l ] || [ -d /work/look/rlib/$l ]; then X="$X --extern $l=$(at $l)"; else X="$X --extern $l=/opt/rattle/rlibs/$l.rlib"; fi; done
for l in $(ls /work/look/rlib 2>/dev/null); do X="$X -L dependency=/work/look/rlib/$l"; done
for l in $(ls $RUN/crates); do [ -d $RUN/crates/$l/out/rlib/$l.rlib ] && X="$X -L dependency=$RUN/crates/$l/out/rlib"; done
root=src/lib.rt; [ -f src/main.rt ] && root=src/main.rt
V=check; O=""; P="--progress"; [ -n "${TIMES:-}" ] && P="$P --stage-times /tmp/stages_$C.txt"
if [ -n "$BUILD" ]; then V=build; P=""; mkdir -p /work/look/rlib/$C; rm -rf /work/look/rlib/$C/$C.rlib; O="--statements -o /work/look/rlib/$C/$C.rlib --empty-contracts"; fi
/opt/rattle/bin/rattle $V --crate-name $C $root --extern std=/opt/rattle/rlibs/std.rlib -L dependency=/opt/rattle/rlibs $X --antt-project /opt/rattle/rattle/logic/antt-project.json --logic-built /opt/rattle/logic_built --links $C= --jobs ${JOBS:-1} $P $O "$@" 2>&1 | python3 -u -c "
import sys,time
t0=time.time()
for l in sys.stdin:
    print('%.1f'%(time.time()-t0), l.rstrip()[:3000])
" > /tmp/timed_$C.txt

#!/bin/bash
# try_edit.sh ROOT RUN CRATE EDIT FUNCTION..: tries an edit on functions alone
R=$1; RUN=$2; C=$3; E=$4; shift 4
D=/work/look/try_$C; rm -rf $D; cp -r $R/crates/$C $D; rm -rf $D/out
python3 - $D $E <<'P'
import sys
d,e=sys.argv[1:]
f=o=None
for l in open(e):
    l=l.rstrip('\n')
    if l.startswith('file: '): f=l[6:].strip()
    elif l.startswith('old: '): o=l[5:]
    elif l.startswith('new:'):
        n=l[4:]; n=n[1:] if n.startswith(' ') else n
        t=open(f'{d}/{f}').read(); assert t.count(o)==1,(t.count(o),o); open(f'{d}/{f}','w').write(t.replace(o,n))
P
O=""; for f in "$@"; do O="$O --only $f"; done
LIST=${LIST:-$R/crates.txt} /work/helpers/timed.sh $RUN $C $D $O
grep -v "statements\|checked " /tmp/timed_$C.txt | grep "not proved\|no proof\|only=\|error\|logic=" | cut -c1-260 | head -8

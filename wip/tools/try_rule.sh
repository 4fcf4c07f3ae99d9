#!/bin/bash
# try_rule.sh ROOT RUN EDIT CRATE [BETWEEN..] LAWS: tries a wrong rule of ROOT that changes one crate's definitions: builds that crate with it over RUN's libraries, then each crate
# between anew over that, and checks the crate of the laws (two minutes and more, where tools/try-wrong-rules proves all that is below in a checkout without out/incremental). One at a time for a crate.
R=$1; RUN=$2; E=$3; C=$4; shift 4
D=/work/look/rule_$C; rm -rf $D /work/look/rlib_$C; mkdir -p /work/look; cp -r $R/crates/$C $D; rm -rf $D/out
python3 - $D $E $C <<'P'
import sys
d,e,c=sys.argv[1:]
f=o=None
for l in open(e):
    l=l.rstrip('\n')
    if l.startswith('file: '): f=l[6:].strip(); assert f.startswith(c+'/'); f=f[len(c)+1:]
    elif l.startswith('old: '): o=l[5:]
    elif l.startswith('new:'):
        n=l[4:]; n=n[1:] if n.startswith(' ') else n
        t=open(f'{d}/{f}').read(); assert t.count(o)==1,(t.count(o),o); open(f'{d}/{f}','w').write(t.replace(o,n))
P
sed "s#/work/look/rlib#/work/look/rlib_$C#g; s#/tmp/timed_#/tmp/ruled_#g" $(dirname $0)/timed.sh > /tmp/rule_$C.sh
export LIST=$R/crates.txt
told() { echo "$1: $(grep -v 'statements\|checked ' /tmp/ruled_$1.txt | grep 'not proved\|no proof\|logic=\|error' | cut -c1-200 | head -12)"; }
BUILD=1 bash /tmp/rule_$C.sh $RUN $C $D; told $C
while [ $# -gt 1 ]; do BUILD=1 bash /tmp/rule_$C.sh $RUN $1 $R/crates/$1; told $1; shift; done
bash /tmp/rule_$C.sh $RUN $1 $R/crates/$1; told $1

import re,sys
src,dst=sys.argv[1:]
poison=re.compile(r'^\s*call void @llvm\.memset\.p0\.i64\(ptr %\w+, i8 -86,')
check=re.compile(r'^\s*(tail )?call void @"rattle-llvm-checks::(Alignment|Cast|Null|Offset|Overflow|Shift|Signature|Value|Unreachable|ZeroDivisor)"\(')
with open(src) as f, open(dst,'w') as o:
    for l in f:
        if poison.match(l) or check.match(l): continue
        if l.startswith('attributes #') and 'sanitize_address' in l:
            l=re.sub(r'\{.*\}','{ nounwind "target-cpu"="x86-64" }',l)
        o.write(l)

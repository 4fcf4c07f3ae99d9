import re,sys
for f in sys.argv[1:]:
    t=open(f).read()
    for blk in re.split(r'(?m)^== ',t)[1:]:
        name=blk.split()[0]; rest=blk.split('\n',1)[1] if '\n' in blk else ''
        ok='not proved' in rest or 'no proof' in rest
        print(('refused ' if ok else 'OPEN    ')+name+('' if ok else ' :: '+rest[:300].replace('\n',' | ')))

import sys,glob,os
root=sys.argv[1]; bad=0
for e in sorted(glob.glob(root+'/crates/*/must-fail/*.edit')):
    c=e.split('/must-fail/')[0]; f=None; n=0
    for line in open(e,encoding='utf8').read().split('\n'):
        if line.startswith('file: '): f=line[6:]
        elif line.startswith('old: '):
            n+=1
            p=c+'/'+f
            t=open(p,encoding='utf8').read() if os.path.exists(p) else ''
            k=t.count(line[5:])
            if k!=1: print('BAD',e,f,k); bad+=1
    if not n: print('EMPTY',e)
print('edits checked, bad',bad)

import sys,os,glob,re,collections,subprocess
c=sys.argv[1]; root=sys.argv[2] if len(sys.argv)>2 else '/tmp/w/p20'
os.chdir(root)
subprocess.run(['rm','-rf',f'target/inc/{c}'])
subprocess.run(["rt","dev",c],stdout=open("/tmp/w/dev."+c,"w"),stderr=subprocess.STDOUT)
fs=[f for f in glob.glob(f'target/inc/{c}/*/records/*')+glob.glob(f'target/inc/{c}/*/*.oantt')]
ts=sorted((os.stat(f).st_mtime,f) for f in fs)
agg=collections.Counter(); kinds=collections.Counter()
p=None
for t,f in ts:
    n=os.path.basename(f).replace('.decls','').replace('.oantt','')
    d=0 if p is None else t-p
    p=t
    m=re.match(r'Rattle·%s(·proofs|·specs)?\.(proofs|specs)\.(.*)'%c,n)
    key=n
    if m:
        parts=m.group(3).split('.')
        # strip generated suffix
        gen={'Symbol','Code','Mir','Lts','Tie','Reads','Kinds','Met','Proof','Layout','Statement','Key'}
        i=len(parts)
        k=None
        for j,x in enumerate(parts):
            if x in gen or x.startswith('⟦'): i=j;k=x;break
        key=(m.group(1) or '·facade')+' '+'.'.join(parts[:i])
        if k: kinds[k]+=d
        else: kinds['plain']+=d
    agg[key]+=d
tot=sum(agg.values())
print(c,'total %.1f'%tot, {k:round(v,1) for k,v in kinds.most_common(8)})
for k,v in agg.most_common(22): print('   %.2f %s'%(v,k))

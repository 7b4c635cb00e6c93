import sys,re
root=sys.argv[1]; log=sys.argv[2]
t={}
for l in open(log):
    m=re.match(r'rt: (\w+) proved \((\d+) s\)',l)
    if m: t[m.group(1)]=int(m.group(2))
order=[];deps={}
for l in open(root+'/crates.txt'):
    l=l.split('#')[0].strip()
    if ':' in l:
        n,d=l.split(':'); order.append(n.strip()); deps[n.strip()]=d.split()
lev={}
def level(n):
    if n not in lev: lev[n]=1+max([level(d) for d in deps[n] if d in deps]+[0])
    return lev[n]
tot=0; out=[]
for L in sorted(set(level(n) for n in order)):
    cs=[n for n in order if level(n)==L]
    for i in range(0,len(cs),2):
        b=cs[i:i+2]; m=max(t.get(c,0) for c in b); tot+=m; out.append((L,[(c,t.get(c,0)) for c in b],m))
for o in out: print(*o)
print('total',tot,'cpu',sum(t.values()),'half',sum(t.values())/2)

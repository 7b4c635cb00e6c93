import re,sys
root,log=sys.argv[1],sys.argv[2]
deps={};order=[]
for l in open(root+'/crates.txt'):
    m=re.match(r'([a-z]\w*):(.*)',l)
    if m: deps[m.group(1)]=m.group(2).split(); order.append(m.group(1))
t={}
for l in open(log,errors='replace'):
    m=re.match(r'rt: (\S+) (?:proved|linked).*\((\d+) s\)',l)
    if m: t[m.group(1)]=t.get(m.group(1),0)+int(m.group(2))
d={}
def depth(c):
    if c not in deps: return 0
    if c not in d: d[c]=1+max([depth(x) for x in deps[c] if x in deps] or [0])
    return d[c]
for c in order: depth(c)
for jobs in (2,3,4,6,8):
    tot=0
    for k in range(1,max(d.values())+1):
        L=[t.get(c,3) for c in order if d[c]==k]
        for i in range(0,len(L),jobs):
            b=sorted(L[i:i+jobs])
            # processor sharing on 2 cpus
            time=0;prev=0;n=len(b)
            for j,x in enumerate(b):
                act=n-j; time+=(x-prev)*max(1,act/2); prev=x
            tot+=time
    print(jobs,round(tot),'sum/2',sum(t.get(c,3) for c in order)/2)

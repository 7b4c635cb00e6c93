import re,sys,os
# edw.py ROOT TLOG JOBS: processor seconds of the wrong programs by crate, from a timed log
root,log,J=sys.argv[1],sys.argv[2],int(sys.argv[3])
L=[];start=None
for l in open(log,errors='replace'):
    m=re.match(r'\s*([\d.]+) rt: must-fail (\S+): refused.*first at (\S+); (\d+) s\)',l)
    if m: L.append((float(m.group(1)),m.group(2),int(m.group(4)),m.group(3)))
    elif not L:
        m=re.match(r'\s*([\d.]+) ',l)
        if m: start=float(m.group(1))
work={};i=0
while i<len(L):
    b=L[i:i+J]; end=max(x[0] for x in b); wall=end-start
    f=sorted((x[2],x[1]) for x in b); k=wall/max(f[-1][0],1)
    last=w=0;n=len(f)
    for j,(x,name) in enumerate(f):
        x*=k; w+=(x-last)*min(1,2/(n-j)); last=x; work[name]=w
    start=end;i+=J
print(len(L),'work',round(sum(work.values())))
by={}
for at,n,s,first in L:
    c,e=n.split('/')
    fs=sorted(set(x.split('/')[0] for x in re.findall(r'^file: (\S+)',open(f'{root}/crates/{c}/must-fail/{e}.edit').read(),re.M)))
    by.setdefault(c,[]).append((work[n],e,'+'.join(fs)))
for c,v in sorted(by.items(),key=lambda x:-sum(y[0] for y in x[1])):
    print('%-10s %2d %6.1f  each %.1f  specs %d'%(c,len(v),sum(y[0] for y in v),sum(y[0] for y in v)/len(v),sum(1 for y in v if y[2]=='specs')))

import re,sys
# sim3.py ROOT TLOG : work of each crate (processor seconds) from a timed log at 4 jobs, and what other schedules would take
root,log=sys.argv[1],sys.argv[2]
deps={};order=[]
for l in open(root+'/crates.txt'):
    m=re.match(r'([a-z]\w*):(.*)',l)
    if m: deps[m.group(1)]=m.group(2).split(); order.append(m.group(1))
t={};at={}
for l in open(log,errors='replace'):
    m=re.match(r'\s*([\d.]+) rt: (\S+) (proved|linked).*\((\d+) s\)',l)
    if m: t[m.group(2)]=int(m.group(4)); at[m.group(2)]=float(m.group(1))
    m=re.match(r'\s*([\d.]+) rt: (\S+) built.*\((\d+) s\)',l)
lev={};plan=[]
state={}
def visit(n):
    if state.get(n)==2: return
    l=0
    for a in deps[n]:
        if a in deps:
            visit(a); l=max(l,lev[a]+1)
    state[n]=2;lev[n]=l;plan.append(n)
for n in order: visit(n)
plan.sort(key=lambda n:lev[n]) # stable
def share(b,P=2):
    b=sorted(b);time=prev=0;n=len(b)
    for j,x in enumerate(b):
        act=n-j; time+=(x-prev)*max(1,act/P); prev=x
    return time
def batches(plan,lev,jobs):
    out=[];cur=[];at=None
    for n in plan:
        if (lev[n]!=at or len(cur)>=jobs) and cur: out.append(cur);cur=[]
        at=lev[n];cur.append(n)
    if cur: out.append(cur)
    return out
# inversion at 4 jobs
import os
J=int(os.environ.get("J","4"))
work={}
prevend=0.7
for b in batches(plan,lev,J):
    end=max(at.get(n,0) for n in b)
    f=sorted((t[n],n) for n in b if n in t)
    # scale so the last equals end-prevend
    if not f: continue
    wall=end-prevend; k=wall/max(f[-1][0],1) if f[-1][0] else 1
    prevend=end
    last=0;w=0;n=len(f)
    for j,(x,name) in enumerate(f):
        x=x*k
        act=n-j; w+=(x-last)*min(1,2/act); last=x
        work[name]=w
if __name__=='__main__':
    tot=sum(work.values())
    print('work',round(tot),'half',round(tot/2))
    for jobs in (2,3,4,5,6,8,16):
        print(jobs,round(sum(share([work.get(n,1) for n in b]) for b in batches(plan,lev,jobs))))
    # longest path
    lp={}
    def path(n):
        if n not in lp:
            best=(0,[])
            for a in deps[n]:
                if a in deps: best=max(best,path(a))
            lp[n]=(best[0]+work.get(n,1),best[1]+[n])
        return lp[n]
    m=max(path(n) for n in order)
    print('longest path',round(m[0]),[(n,round(work.get(n,1))) for n in m[1]])
    # ideal list schedule
    for b in batches(plan,lev,99):
        w=sorted([(round(work.get(n,1),1),n) for n in b],reverse=True)
        print(lev[b[0]],round(share([x for x,_ in w])),'half',round(sum(x for x,_ in w)/2),w)

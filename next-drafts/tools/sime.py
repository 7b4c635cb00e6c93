import re,sys
L=[int(m.group(1)) for m in re.finditer(r'rt: must-fail \S+: refused.*; (\d+) s\)',open(sys.argv[1],errors='replace').read(),re.M)]
def sim(L,jobs):
    tot=0
    for i in range(0,len(L),jobs):
        b=sorted(L[i:i+jobs]);time=prev=0;n=len(b)
        for j,x in enumerate(b):
            act=n-j; time+=(x-prev)*max(1,act/2); prev=x
        tot+=time
    return tot
for j in (2,3,4,6,8,12,16): print(j,round(sim(L,j)),'sum/2',sum(L)/2,len(L))

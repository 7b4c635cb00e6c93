#!/usr/bin/env python3
# alone.py BEFORE AFTER CRATE..: seconds of `rt check CRATE` by itself in two built clones, and of the wrong programs that are new in the second, one at a time
import sys,os,subprocess,time,glob
a,b=sys.argv[1:3]; crates=sys.argv[3:]
env=dict(os.environ,TMPDIR='/dev/shm',RT_JOBS='1')
def check(root,c):
    if not os.path.isdir(f'{root}/crates/{c}'): return None
    if os.path.exists(f'{root}/target/stamp/{c}'): os.remove(f'{root}/target/stamp/{c}')
    t=time.time(); p=subprocess.run(['rt','check',c],cwd=root,env=env,stdout=subprocess.PIPE,stderr=subprocess.STDOUT,text=True)
    d=time.time()-t
    n=[l for l in p.stdout.split('\n') if l.startswith('rt: ') and ' proved (' in l and 'unchanged' not in l]
    return round(d,1) if p.returncode==0 and len(n)==1 else ('?',p.returncode,n,round(d,1))
for c in crates: print(c,check(a,c),check(b,c),flush=True)
def edits(root): return {e[len(root)+8:] for e in glob.glob(root+'/crates/*/must-fail/*.edit')}
new=sorted(edits(b)-edits(a)); gone=sorted(edits(a)-edits(b))
print('gone',gone)
s=0
for e in new:
    c,l=e.split('/')[0],e.split('/')[2][:-5]
    p=subprocess.run(['bash','/tmp/w/tryedit',b,c,l],env=env,stdout=subprocess.PIPE,text=True)
    w=p.stdout.split(); d=float(w[2]); s+=d
    print(c,l,w[1],round(d,1),flush=True)
print('wrong programs',len(new),round(s,1))

# movefns.py OLD NEW: the functions of crate OLD (src/ and proofs/<function>/) into a crate NEW above it; definitions and laws stay. Run in the root.
import os,re,sys,subprocess,glob
old,new=sys.argv[1:3]
def rd(p): return open(p).read()
def wr(p,s): open(p,'w').write(s)
def mv(a,b):
    os.makedirs(os.path.dirname(b),exist_ok=True); subprocess.check_call(['git','mv',a,b])
for f in glob.glob(f'crates/{old}/src/*.rt'): mv(f,f'crates/{new}/src/{os.path.basename(f)}')
fns=[d for d in os.listdir(f'crates/{old}/proofs') if os.path.isdir(f'crates/{old}/proofs/{d}')]
for d in fns: mv(f'crates/{old}/proofs/{d}',f'crates/{new}/proofs/{d}')
if os.path.exists(f'crates/{old}/proofs/Only.antt'): mv(f'crates/{old}/proofs/Only.antt',f'crates/{new}/proofs/Only.antt')
for f in glob.glob(f'crates/{new}/**/*',recursive=True):
    if not os.path.isfile(f) or f.endswith('.edit'): continue
    s=rd(f)
    s=re.sub(r'Rattle·%s·proofs\.proofs\.([a-z])'%old,r'Rattle·%s·proofs.proofs.\1'%new,s)
    s=s.replace(f'Rattle·{old}·proofs.proofs.',f'Rattle·{old}.proofs.').replace(f'Rattle·{old}·specs.specs.',f'Rattle·{old}.specs.')
    wr(f,s)
# edits of the code
for e in glob.glob(f'crates/{old}/must-fail/*.edit'):
    if re.search(r'^file: src/',rd(e),re.M): mv(e,f'crates/{new}/must-fail/{os.path.basename(e)}')
for f in glob.glob('crates/*/src/**/*.rt',recursive=True)+glob.glob('crates/*/proofs/**/*.antt',recursive=True)+glob.glob('crates/*/specs/**/*.antt',recursive=True):
    s=rd(f); t=re.sub(r'\buse %s::'%old,f'use {new}::',s); t=re.sub(r'Rattle·%s\.proofs\.([a-z]\w*)\.(Reads|Statement|Tie|Met)'%old,r'Rattle·%s.proofs.\1.\2'%new,t)
    if t!=s: wr(f,t); print('use',f)
print('functions',fns)

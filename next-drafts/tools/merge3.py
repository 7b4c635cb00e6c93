# merge3.py [--theirs-first] FILE..: solves diff3 conflict hunks by a three-way merge over words;
# where both sides insert at one place, ours comes first (or theirs); where both change the same words, the hunk is left and named
import re,sys,difflib
first='ours'
args=sys.argv[1:]
if args[0]=='--theirs-first': first='theirs'; args=args[1:]
tok=lambda s: re.findall(r'\n|[ \t]+|\w+|[^\w\s]',s)
def ops(b,x):
    return [o for o in difflib.SequenceMatcher(None,b,x,autojunk=False).get_opcodes() if o[0]!='equal']
def merge(o,b,t):
    B,O,T=tok(b),tok(o),tok(t)
    if not B: return (o+t if first=='ours' else t+o)
    ed=[(i1,i2,''.join(O[j1:j2]),'o') for _,i1,i2,j1,j2 in ops(B,O)]+[(i1,i2,''.join(T[j1:j2]),'t') for _,i1,i2,j1,j2 in ops(B,T)]
    ed.sort(key=lambda e:(e[0],e[1],e[3]=='t' if first=='ours' else e[3]=='o'))
    out=[];p=0;last=None
    for i1,i2,s,w in ed:
        if i1<p:
            if last==(i1,i2,s): continue
            return None
        if last and last[0]==i1 and last[1]==i2==i1 and last[2]==s: continue
        out.append(''.join(B[p:i1])); out.append(s); p=i2; last=(i1,i2,s)
    out.append(''.join(B[p:])); return ''.join(out)
for f in args:
    t=open(f,encoding='utf8').read(); left=0
    def go(m):
        global left
        r=merge(m.group(1),m.group(2),m.group(3))
        if r is None: left+=1; return m.group(0)
        return r
    t2=re.sub(r'<<<<<<< [^\n]*\n(.*?)\|\|\|\|\|\|\| [^\n]*\n(.*?)=======\n(.*?)>>>>>>> [^\n]*\n',go,t,flags=re.S)
    open(f,'w',encoding='utf8').write(t2); print(f,'left' if left else 'ok',left or '')

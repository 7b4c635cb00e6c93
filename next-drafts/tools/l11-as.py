import re,sys
for f in sys.argv[1:]:
    t=open(f).read(); lines=t.split('\n')
    body='\n'.join(l for l in lines if not l.startswith('use ') and not l.strip().startswith('--'))
    out=[];ch=False
    for l in lines:
        m=re.match(r'use \S+ as ([\w·-]+)$',l)
        if m and not re.search(r'(?<![\w-])'+re.escape(m[1])+r'\.',body): ch=True; continue
        out.append(l)
    if ch: open(f,'w').write('\n'.join(out)); print('as',f)

import re,sys
for f in sys.argv[1:]:
    t=open(f).read(); lines=t.split('\n')
    body='\n'.join(l for l in lines if not l.startswith('use ') and not l.strip().startswith('--'))
    toks=set(re.findall(r"[^\s(){}\[\];,.⌜⌝]+",body)); toks|=set(x for tk in list(toks) for x in tk.split('.'))
    if '[]' in body or '[ ]' in body: toks.add('[]')
    out=[]; ch=False
    for l in lines:
        m=re.match(r'use ([^{]*)\.\{(.*)\}$',l)
        if not m: out.append(l); continue
        keep=[]
        for n in [x.strip() for x in m.group(2).split(',')]:
            if '_' in n and (n.startswith('_') or n.endswith('_')):
                ok=all(p in toks for p in n.split('_') if p)
            else: ok=n in toks
            if ok: keep.append(n)
        if not keep: ch=True; continue
        if len(keep)!=len(m.group(2).split(',')): ch=True
        out.append('use %s.{%s}'%(m.group(1),', '.join(keep)))
    if ch: open(f,'w').write('\n'.join(out)); print('tidied',f)

import re,sys
for f in sys.argv[1:]:
    t=open(f).read(); lines=t.split('\n')
    body='\n'.join(l for l in lines if not l.startswith('use ') and not l.strip().startswith('--'))
    toks=set(re.findall(r"[^\s(){}\[\];,.⌜⌝]+",body))
    toks|=set(x for tk in list(toks) for x in re.split(r'[.]',tk))
    for l in lines:
        m=re.match(r'use ([^{]*)\{(.*)\}',l)
        if not m: continue
        for n in [x.strip() for x in m.group(2).split(',')]:
            parts=[p for p in n.split('_') if p] if '_' in n else [n]
            if n.startswith('_') or n.endswith('_'):
                if not all(p in toks or any(p in tk for tk in toks) for p in parts): print(f,'unused',n)
            elif n not in toks: print(f,'unused',n,'in',m.group(1))

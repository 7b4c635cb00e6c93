import re,sys
for f in sys.argv[1:]:
    t=open(f).read(); lines=t.split('\n')
    body='\n'.join(l for l in lines if not l.startswith('ghost use ') and not l.startswith('use ') and not l.strip().startswith('//'))
    for l in lines:
        m=re.match(r'ghost use ([^{]*)\{(.*)\};',l)
        if m:
            for n in [x.strip() for x in m.group(2).split(',')]:
                p=n.strip('_')
                if p not in body: print(f,'unused ghost',n)
            continue
        m=re.match(r'use (.*)::(\w+);',l)
        if m and not re.search(r'\b'+m.group(2)+r'\b',body): print(f,'unused',m.group(2))

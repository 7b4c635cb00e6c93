import re,sys
def t(f):
    d={}
    for l in open(f,errors='replace'):
        m=re.match(r'rt: (\S+) (?:proved|linked).*\((\d+) s\)',l)
        if m: d[m.group(1)]=d.get(m.group(1),0)+int(m.group(2))
        m=re.match(r'rt: must-fail (\S+): refused.*; (\d+) s\)',l)
        if m: d['mf '+m.group(1)]=int(m.group(2))
    return d
a=t(sys.argv[1]);b=t(sys.argv[2]);touched=sys.argv[3].split(',')
print('sums',sum(a.values()),sum(b.values()))
same=[k for k in a if k in b and k.replace('mf ','').split('/')[0] not in touched]
print('untouched',sum(a[k] for k in same),sum(b[k] for k in same))
print('new',{k:b[k] for k in b if k not in a}, sum(b[k] for k in b if k not in a))
print('gone',{k:a[k] for k in a if k not in b})
for c in touched: print(c,a.get(c),b.get(c),'mf',sum(v for k,v in a.items() if k.startswith('mf '+c+'/')),sum(v for k,v in b.items() if k.startswith('mf '+c+'/')))

# version.py X.Y.Z: the version where it stands, and CHANGELOG's sections in falling order
import re,sys
v=sys.argv[1]; a,b,c=v.split('.')
def sub(p,r,s):
    t=open(p,encoding='utf8').read(); t2,n=re.subn(r,s,t); assert n,(p,r); open(p,'w',encoding='utf8').write(t2)
sub('include/direction.h',r'DIRECTION_VERSION "[0-9.]+"',f'DIRECTION_VERSION "{v}"'); sub('include/direction.h',r'VERSION_MINOR \d+',f'VERSION_MINOR {b}')
sub('crates/listing/src/version.rt',r'listing \d+\.\d+\.\d+',f'listing {v}')
sub('docs/HOST.md',r'(?m)^    1\.\d+\.\d+$',f'    {v}'); sub('docs/HOST.md',r'`DIRECTION_VERSION_NUMBER`, \d+ for 1\.\d+\.\d+',f'`DIRECTION_VERSION_NUMBER`, {int(a)*10000+int(b)*100+int(c)} for {v}')
p='CHANGELOG.md'; t=open(p,encoding='utf8').read()
secs=re.split(r'(?m)^(?=## )',t); head=secs[0]; secs=[s.rstrip('\n')+'\n\n' for s in secs[1:]]
secs.sort(key=lambda s:tuple(map(int,re.match(r'## (\d+)\.(\d+)\.(\d+)',s).groups())),reverse=True)
open(p,'w',encoding='utf8').write((head+''.join(secs)).rstrip('\n')+'\n')

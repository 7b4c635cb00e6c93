# theirs.py FILE..: takes the side of the commit that is being put on, in each conflict of a file
import re,sys
for p in sys.argv[1:]:
    s=open(p).read()
    s=re.sub(r'<<<<<<< [^\n]*\n(.*?)\|\|\|\|\|\|\|[^\n]*\n(.*?)=======\n(.*?)>>>>>>> [^\n]*\n',lambda m:m.group(3),s,flags=re.S)
    open(p,'w').write(s)

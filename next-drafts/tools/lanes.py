# lanes.py FILE: lays the last parts of the gate in two lanes that run side by side (once; a file that has lanes is left)
import sys,re
p=sys.argv[1]; s=open(p).read()
if 'answers() {' in s: sys.exit()
def cut(a,b):
    i=s.index(a); return s[i:s.index(b,i)]
T="step \"the independent program's own tests\""
D='step "the desk and the independent program, request by request"'
L='step "the listing program and the independent program, card by card"'
O='step "a program that is older than a source is built again, once"'
E='step "the examples are what they are said to be"'
P='step "the pictures"'
B='step "the drawing board: its server, and its page in a browser"'
H="step \"the C host's call, from C\""
C='step "the commands in the documents run, and print what is shown"'
Z="printf '\\n%d passed, 0 failed\\n'"
top=s[:s.index(T)]
desk,listing,older,examples,pictures,board,host,docs=[cut(a,b) for a,b in ((D,L),(L,O),(O,E),(E,P),(P,B),(B,H),(H,C),(C,Z))]
def take(t,a):
    assert t.count(a)==1,(a,t.count(a)); return t.replace(a,'')
def indent(t):
    out=[];inside=False
    for l in t.rstrip('\n').split('\n'):
        out.append(l if inside or not l else '  '+l)
        if inside:
            if l=='end': inside=False
        elif re.search(r"<<'end'$",l): inside=True
    # the mark of a text that stands in the script is at the line's beginning
    return '\n'.join(out)+'\n'
# helpers to the top
told=listing[listing.index('# told WHAT LIST COMPLAINT'):]; told=told[:told.index('\n}\n')+3]
listing=take(listing,told)
desk=take(desk,'independent=target/independent/release/independent\n')
desk=take(desk,'today=$(date -u +%Y%m%d)\n')
for l in ('"$independent" cards 2000 1 "$logs/cards"\n','"$independent" cards 500 "$today" "$logs/cards-today"\n'): listing=take(listing,l)
board=take(board,'wait "$browser" || fail "the drawing board\'s tests have no browser"\n')
for n in ('listing','pictures','host'):
    t=globals()[n]
    t=t.replace('"$logs"/cards-today/','"$cards/today/"').replace('"$logs"/cards/','"$cards/1/"')
    t=t.replace('"$cards/today/"*','"$cards"/today/*').replace('"$cards/1/"*','"$cards"/1/*')
    globals()[n]=t
a="command -v rt >/dev/null || fail \"rt, the Rattle toolchain, is not on the PATH\"\n"
assert top.count(a)==1
top=top.replace(a,told+a)
a='''# It stops with a non-zero status at the first thing that fails; otherwise its last line is 'N passed, 0 failed'.
'''
assert top.count(a)==1
top=top.replace(a,'''# It ends with a non-zero status at something that fails; otherwise its last line is 'N passed, 0 failed'.
''')
a='''# The browser, of which there is most to fetch, comes while the proofs run.
need chromium chromium &
browser=$!
'''
assert top.count(a)==1
top=top.replace(a,'''# The browser, of which there is most to fetch, comes while the proofs run; and the independent program is built and tested while a processor
# waits, in a folder of its own, because rt ci empties target/.
need chromium chromium &
browser=$!
(cd independent && CARGO_TARGET_DIR=$logs/built exec nice cargo test --release --offline --quiet) >"$logs/independent" 2>&1 &
tests=$!
''')
mid='''step "the independent program's own tests"
wait "$tests" || { cat "$logs/independent" >&2; fail "the independent program's tests fail"; }
cat "$logs/independent"
count "$logs/independent"
independent=$logs/built/release/independent
today=$(date -u +%Y%m%d)
cards=$logs/cards # for both lanes below
mkdir "$cards"
"$independent" cards 2000 1 "$cards/1"
"$independent" cards 500 "$today" "$cards/today"

'''
older=older.rstrip('\n')+'''
# The other programs likewise, so that nothing is built while the lanes run.
for name in desk picture; do tools/run "$name" </dev/null >"$logs/$name" 2>&1; done

'''
lanes='''# What is left goes in two lanes side by side, each with a folder of its own: what the programs answer, and what their users do with them.
answers() {
'''+indent(desk.rstrip('\n')+'\n\n'+listing.rstrip('\n')+'\n\n'+pictures)+'''}

users() {
'''+indent(board.rstrip('\n')+'\n\n'+host.rstrip('\n')+'\n\n'+docs)+'''}

wait "$browser" || fail "the drawing board's tests have no browser"
lanes=(answers users)
for lane in "${lanes[@]}"; do
  mkdir "$logs/$lane"
  (
    logs=$logs/$lane passed=0
    "$lane"
    echo "$passed" >"$logs/passed"
  ) >"$logs/$lane.out" 2>&1 &
done
wait
for lane in "${lanes[@]}"; do
  cat "$logs/$lane.out"
  [ -f "$logs/$lane/passed" ] || failed=$lane
done
[ -z "${failed:-}" ] || fail "something fails in the lane $failed"
for lane in "${lanes[@]}"; do passed=$((passed + $(cat "$logs/$lane/passed"))); done
'''
s=top+mid+older+examples+lanes+'\n'+s[s.index(Z):]
s=re.sub(r'\n\n\n+','\n\n',s)
open(p,'w').write(s)

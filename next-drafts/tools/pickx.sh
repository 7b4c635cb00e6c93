# pickx.sh "FILES TO KEEP" COMMIT..: as pick.sh, but the named files stay as they are here
keep=$1; shift
for c in "$@"; do
  git cherry-pick -n -Xpatience $c >/dev/null 2>&1
  u=$(git diff --name-only --diff-filter=U)
  [ -n "$u" ] && echo "$(git log -1 --format=%s $c | cut -c1-60): $(echo $u)"
  for f in $keep; do git checkout -q HEAD -- $f 2>/dev/null; done
  for f in $u; do case " $keep " in *" $f "*) ;; *) git checkout -q --merge $f 2>/dev/null; python3 /tmp/w/merge3.py $f | grep -v ok; git add $f ;; esac; done
  git add -A; git commit -q -C $c || echo "  nothing of $c"
  git cherry-pick --quit 2>/dev/null
done

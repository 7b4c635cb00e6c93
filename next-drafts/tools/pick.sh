# pick.sh COMMIT..: cherry-picks, solving conflicts by merge3 (ours first); names what was joined
for c in "$@"; do
  if ! git cherry-pick -Xpatience $c >/dev/null 2>&1; then
    u=$(git diff --name-only --diff-filter=U)
    echo "$(git log -1 --format=%s $c | cut -c1-60): $(echo $u)"
    for f in $u; do git checkout -q --merge $f 2>/dev/null; python3 /tmp/w/merge3.py $f | grep -v ok; git add $f; done
    GIT_EDITOR=true git cherry-pick --continue >/dev/null 2>&1 || echo "  STOPPED at $c"
  fi
done

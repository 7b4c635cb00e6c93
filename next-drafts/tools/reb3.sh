# reb3.sh NEW OLD BRANCH: git rebase --onto NEW OLD BRANCH with conflicts solved over words; names what is left
git checkout -q $3; git rebase -q --onto $1 $2 $3 >/dev/null 2>&1
for i in $(seq 1 60); do [ -d .git/rebase-merge ] || break
  u=$(git diff --name-only --diff-filter=U); [ -n "$u" ] && echo "$(git log -1 --format=%s REBASE_HEAD | cut -c1-50): $(echo $u)"
  for f in $u; do case $f in docs/floors.svg) ;; *) git checkout -q --merge $f 2>/dev/null; python3 /tmp/w/merge3.py $f | grep -v ' ok';; esac; git add $f; done
  case "$u" in *floors.svg*) tools/floors > docs/floors.svg; git add docs/floors.svg ;; esac
  GIT_EDITOR=true git rebase --continue >/dev/null 2>&1
done
git status | head -2; grep -rln "<<<<<<<\|>>>>>>>" docs crates independent README.md .ci crates.txt include examples tools CHANGELOG.md CONTRIBUTING.md

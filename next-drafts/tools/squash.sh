# squash.sh BASE BRANCH: git rebase -i --autosquash, conflicts solved as in reb3.sh
git checkout -q $2; GIT_SEQUENCE_EDITOR=true git rebase -q -i --autosquash $1 >/dev/null 2>&1
for i in $(seq 1 80); do [ -d .git/rebase-merge ] || break
  u=$(git diff --name-only --diff-filter=U); [ -n "$u" ] && echo "$(git log -1 --format=%s REBASE_HEAD | cut -c1-50): $(echo $u)"
  for f in $u; do case $f in docs/floors.svg) ;; *) git checkout -q --merge $f 2>/dev/null; python3 /tmp/w/merge3.py $f | grep -v ' ok';; esac; git add $f; done
  case "$u" in *floors.svg*) tools/floors > docs/floors.svg; git add docs/floors.svg ;; esac
  GIT_EDITOR=true git rebase --continue >/dev/null 2>&1
done
git status | head -2; grep -rln "<<<<<<<\|>>>>>>>" docs crates independent README.md .ci crates.txt include examples tools CHANGELOG.md CONTRIBUTING.md

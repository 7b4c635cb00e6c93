# refile.sh BASE BRANCH FILE SCRIPT: rewrites FILE in every commit of BASE..BRANCH by SCRIPT (env N = number of the commit from 1), floors drawn anew
base=$1; br=$2; f=$3; sc=$4; n=0; cs=$(git rev-list --reverse $base..$br); git checkout -q --detach $base; p=$(git rev-parse $base)
for c in $cs; do n=$((n+1)); git checkout -q -f $c; git clean -fdq; N=$n bash -c "$sc"; tools/floors > docs/floors.svg 2>/dev/null; git add $f docs/floors.svg; t=$(git write-tree)
  p=$(GIT_AUTHOR_NAME="$(git log -1 --format=%an $c)" GIT_AUTHOR_EMAIL="$(git log -1 --format=%ae $c)" GIT_AUTHOR_DATE="$(git log -1 --format=%ad $c)" git commit-tree $t -p $p -m "$(git log -1 --format=%B $c)"); git checkout -q -f $p; git clean -fdq; done
git branch -f $br $p; git checkout -q $br

# refall.sh OLDBASE NEWBASE FILE SCRIPT BRANCH..: every commit of OLDBASE..last BRANCH anew on NEWBASE, with FILE rewritten by SCRIPT in each; branches follow
old=$1; new=$2; f=$3; sc=$4; shift 4; last=${@: -1}
declare -A to; p=$(git rev-parse $new)
for c in $(git rev-list --reverse $old..$last); do
  git checkout -q -f $c; git clean -fdq; bash -c "$sc"; git add "$f"; t=$(git write-tree)
  p=$(GIT_AUTHOR_NAME="$(git log -1 --format=%an $c)" GIT_AUTHOR_EMAIL="$(git log -1 --format=%ae $c)" GIT_AUTHOR_DATE="$(git log -1 --format=%aI $c)" git commit-tree $t -p $p -m "$(git log -1 --format=%B $c)")
  to[$c]=$p
done
git checkout -q -f --detach $new
for b in "$@"; do git branch -f $b ${to[$(git rev-parse $b)]}; done

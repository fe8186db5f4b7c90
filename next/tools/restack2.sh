#!/bin/bash
# restack2.sh FROM-N OLDNAME...: continue rebasing new-N chain; stops at a conflict and shows it
prev_old=$1; prev_new=$2; shift 2
for n in "$@"; do
  git checkout -q -B new-$n origin/stack/land-$n
  git rebase -q --onto $prev_new $prev_old > $HELPERS/restack.$n 2>&1
  while [ -d .git/rebase-merge ] || [ -d .git/rebase-apply ]; do
    git diff --diff-filter=U | head -40
    python3 $HELPERS/tools/mine.py; git add -A; GIT_EDITOR=true git rebase --continue > $HELPERS/rc 2>&1
  done
  prev_old=origin/stack/land-$n; prev_new=new-$n
  echo $n $(git log -1 --oneline)
done

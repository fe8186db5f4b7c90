#!/bin/bash
# restack.sh NEWBASE: in a clone of the bare stack (origin/stack/land-*), rebase each land-N onto the one before, from NEWBASE for land-6 on; branches new-N
prev_old=origin/stack/land-5; prev_new=$1
for n in 6 7 8 8-house 23 9 10 11 12 13 14; do
  git checkout -q -B new-$n origin/stack/land-$n
  if ! git rebase -q --onto $prev_new $prev_old > $HELPERS/restack.$n 2>&1; then echo "conflict at $n"; git status --short | grep -E '^(UU|AA|DU|UD|AU|UA)'; exit 1; fi
  prev_old=origin/stack/land-$n; prev_new=new-$n
  echo $n $(git log -1 --oneline)
done

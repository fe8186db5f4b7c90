#!/bin/bash
# pick.sh LIST: picks the commits of the list file from the top; merges crates.txt itself; stops at another conflict
while [ -s $1 ]; do
  c=$(head -1 $1); sed -i 1d $1
  if ! git cherry-pick $c >$HELPERS/cp.log 2>&1; then
    if git status --short | grep -q '^UU crates.txt'; then
      python3 $HELPERS/tools/mergecrates.py && python3 $HELPERS/tools/sortcrates.py && git add crates.txt
    fi
    if git status --short | grep -q '^\(UU\|AA\|DU\|UD\|AU\|UA\)'; then
      echo CONFLICT; git log -1 --oneline $c; git status --short | grep -v '^[AMRD] '; exit 1
    fi
    git -c core.editor=true cherry-pick --continue >$HELPERS/cp2.log 2>&1 || { cat $HELPERS/cp2.log; exit 1; }
  fi
done
echo done

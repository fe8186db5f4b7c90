#!/bin/bash
# carry.sh BRANCH FROM TO: picks FROM..TO on a new BRANCH at HEAD, mending the known conflicts (MUST-FAIL's table, the stack's figures)
git checkout -q -B $1
git rev-list --reverse $2..$3 > $HELPERS/carry.$1
while ! bash $HELPERS/tools/pick.sh $HELPERS/carry.$1 > $HELPERS/carry.out; do
  u=$(git status --short | grep '^\(UU\|AA\|DU\|UD\|AU\|UA\)' | awk '{print $2}')
  for f in $u; do
    case $f in
      docs/MUST-FAIL.md) python3 $HELPERS/tools/mftable.py && git add $f || exit 1;;
      docs/DECISIONS.md) python3 $HELPERS/tools/stackfix.py && git add $f || { cat $HELPERS/carry.out; exit 1; };;
      crates.txt) python3 $HELPERS/tools/mergecrates.py && python3 $HELPERS/tools/sortcrates.py && git add crates.txt;;
      *) cat $HELPERS/carry.out; exit 1;;
    esac
  done
  git -c core.editor=true cherry-pick --continue >$HELPERS/cp2.log 2>&1 || { cat $HELPERS/cp2.log; exit 1; }
done
echo $1 $(git log -1 --oneline)

#!/bin/bash
# goon.sh: goes on with a rebase while the conflicts are of known kinds (crates.txt, DECISIONS' stack figures, MUST-FAIL's and TRUST's rows); stops and names others
while [ -d "$(git rev-parse --git-path rebase-merge)" ]; do
  for f in $(git status --short | grep '^\(UU\|AA\|DU\|UD\|AU\|UA\)' | awk '{print $2}'); do
    case $f in
      crates.txt) python3 $HELPERS/tools/mergecrates.py && python3 $HELPERS/tools/sortcrates.py || exit 1;;
      docs/DECISIONS.md) python3 $HELPERS/tools/stackpar.py || python3 $HELPERS/tools/writing4.py || { echo "STOP at $(git log -1 --format=%h REBASE_HEAD): $f"; exit 1; };;
      docs/MUST-FAIL.md) python3 $HELPERS/tools/rows3.py $f;;
      docs/TRUST.md) python3 $HELPERS/tools/rows3.py $f; python3 $HELPERS/tools/trustfix.py;;
      *) python3 $HELPERS/tools/words3.py $f && { echo "words $f"; git add $f; continue; }; echo "STOP at $(git log -1 --format=%h REBASE_HEAD): $f"; exit 1;;
    esac
    echo "mended $f at $(git log -1 --format='%h %s' REBASE_HEAD)"
    git add $f
  done
  GIT_EDITOR=true git rebase --continue > $HELPERS/goon.log 2>&1 || true
done
git log -1 --oneline

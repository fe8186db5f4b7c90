#!/bin/bash
# save.sh: bundles the prepared branches of the bare repository into next/stack.bundle, which needs only what is on main, and the tools beside it
cd $HELPERS/stack || exit 1
git fetch -q $MAIN +main:refs/heads/main
git bundle create -q $MAIN/next/stack.bundle --branches ^main && ls -la $MAIN/next/stack.bundle
mkdir -p $MAIN/next/tools; rm -f $MAIN/next/tools/* $MAIN/next/*.md $MAIN/next/restack-notes.txt; cp $HELPERS/tools/*.py $HELPERS/tools/*.sh $MAIN/next/tools/; cp $HELPERS/slot $HELPERS/BRIEF.md $HELPERS/review9.md $HELPERS/review1?.md $HELPERS/times.txt $MAIN/next/

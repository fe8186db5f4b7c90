#!/bin/sh
# prepare.sh ROOT: takes Given out of row_uses, which breaks the one cycle (rows and loads)
set -e
cd "$1/crates"
mkdir -p row_given/src row_given/specs row_given/proofs
echo '// What the tests of a plan ask of the structs.' > row_given/src/lib.rt
mv row_uses/specs/Given.antt row_given/specs/; mv row_uses/proofs/Given.antt row_given/proofs/
echo 'pub mod Given' > row_given/specs/Lib.antt; echo 'pub mod Given' > row_given/proofs/Lib.antt
sed -i '/^pub mod Given$/d' row_uses/specs/Lib.antt row_uses/proofs/Lib.antt
grep -rl 'row_uses' . --include=*.rt --include=*.antt --include=*.edit | xargs sed -i -E 's/Rattle\.row_uses\.(specs|proofs)\.Given/Rattle.row_given.\1.Given/g'
cd ..; sed -i -E 's/^(.*: .*)\brow_uses\b/\1row_given row_uses/; s/^row_uses: (.*)$/row_given: limits flows network plans durations\nrow_uses: \1 row_given/' crates.txt
sed -i -E '/^(row_chains|row_tests):/s/ row_uses//' crates.txt

#!/usr/bin/env python3
"""renames.py FILE..: names that moved by the gate's splits, mended in files of other crates (.rt, .antt, .edit). Files of the crates that
moved are left to git's renames. After it: crates.txt needs the new crates in the lines of those that name them, and of those whose code has
a struct of them (states, for who holds a State)."""
import re,sys
E=r"(?![A-Za-z0-9_·])"
R=[
 (r"(?<![\w:])numbers::(write_at|number_length)"+E,r"number_writer::\1"),
 (r"(?<![\w:])numbers::read_field"+E,"field_reader::read_field"),
 (r"(?<![\w:])network::read"+E,"network_reader::read"),
 (r"(?<![\w:])residual::offer"+E,"arcs::offer"),(r"(?<![\w:])residual::nearest"+E,"nearest::nearest"),(r"(?<![\w:])residual::index_links"+E,"adjacency::index_links"),
 (r"(?<![\w:])augment::(State|begin|raise|cost)"+E,r"states::\1"),
 (r"Rattle·augment\.specs\.(State|Steps|declared\.State)"+E,r"Rattle·states.specs.\1"),
 (r"Rattle·augment\.proofs\.(Held|Raised|Splice|Start|Steps|Weigh)"+E,r"Rattle·states.proofs.\1"),
 (r"(?<![\w:])examiner::(judge|Judged)"+E,r"judge::\1"),
 (r"Rattle·examiner\.specs\.(Judge|declared\.Judged)"+E,r"Rattle·judge.specs.\1"),
 (r"Rattle·examiner\.proofs\.(CutTests|Verdicts)"+E,r"Rattle·judge.proofs.\1"),
 (r"(?<![\w:])optimum::most"+E,"record_optimum::most"),
 (r"Rattle·optimum\.(specs|proofs)\.Steps"+E,r"Rattle·primal_dual.\1.Steps"),
 (r"(?<![\w:])planner::plan"+E,"record_planner::plan"),(r"(?<![\w:])planner::plan_network"+E,"network_planner::plan_network"),
 (r"Rattle·planner\.proofs\.First"+E,"Rattle·network_planner.proofs.First"),
 (r"(?<![\w:])texts::(find_records|Frame)"+E,r"inputs::\1"),
 (r"Rattle·texts\.specs\.(Frame|declared\.Frame)"+E,r"Rattle·inputs.specs.\1"),(r"Rattle·texts\.proofs\.Framing"+E,"Rattle·inputs.proofs.Framing"),
]
for p in sys.argv[1:]:
    s=n=open(p,encoding="utf8").read()
    for a,b in R: n=re.sub(a,b,n)
    if n!=s: open(p,"w",encoding="utf8").write(n); print("mended",p)

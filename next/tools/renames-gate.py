#!/usr/bin/env python3
"""renames-gate.py FILE..: names moved by the gate's second splits, mended in files of other crates (.rt, .antt, .edit); then crates.txt needs the new crates."""
import re,sys
E=r"(?![A-Za-z0-9_·])"
R=[(r"(?<![\w:])texts::put_word"+E,"words::put_word"),(r"(?<![\w:])texts::put_named"+E,"decimals::put_named"),
 (r"(?<![\w:])texts::(put_spaced|put_line|put_refused)"+E,r"lines::\1"),
 (r"Rattle·texts\.proofs\.put_word"+E,"Rattle·words.proofs.put_word"),(r"Rattle·texts\.proofs\.put_named"+E,"Rattle·decimals.proofs.put_named"),
 (r"Rattle·texts\.proofs\.(put_spaced|put_line|put_refused)"+E,r"Rattle·lines.proofs.\1"),
 (r"(?<![\w:])network_writer::write_record"+E,"record_writer::write_record"),(r"Rattle·network_writer\.proofs\.write_record"+E,"Rattle·record_writer.proofs.write_record"),
 (r"(?<![\w:])plan_parts::read_row"+E,"row_reader::read_row"),(r"Rattle·plan_parts\.proofs\.(read_row|read_chain|ReadRow)"+E,r"Rattle·row_reader.proofs.\1"),
 (r"calls-plan-parts·read-row","calls-row-reader·read-row"),
 (r"(?<![\w:])cuts::(addend|slack|counted)"+E,r"slacks::\1"),(r"Rattle·cuts\.specs\.Addend"+E,"Rattle·slacks.specs.Addend"),(r"Rattle·cuts\.proofs\.Counts"+E,"Rattle·slacks.proofs.Counts"),
 (r"Rattle·exports·specs\.specs\.Answers\.\{MostTold, PlanTold\}","Rattle·most_told.specs.MostTold.{MostTold}")]
for p in sys.argv[1:]:
    s=n=open(p,encoding="utf8").read()
    for a,b in R: n=re.sub(a,b,n)
    if n!=s: open(p,"w",encoding="utf8").write(n); print("mended",p)

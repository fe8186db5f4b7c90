//! The listing program and the sheet program, in Rattle: what they cannot read
//! and what is lost they tell on standard error. A program of Rattle's has no
//! exit status of its own: it is 0 always.

mod support;

use support::{Folder, A, A_PLAN};

#[test]
fn what_is_lost_is_told() {
    let folder = Folder::new();
    let input = [&[24][..], &A, &A_PLAN].concat();
    folder.put("input", &input);
    for (name, job) in [("list", "show"), ("sheet", "sheet")] {
        let program = folder.text_program(name);
        let tells = |streams: &str, out: &str, err: &str| {
            let ran = folder.shell(&format!("'{}' {streams}", program.display()));
            assert_eq!((ran.status, ran.out.as_str(), ran.err.as_str()), (0, out, err), "{streams}");
        };
        tells("<.", "", &format!("{name}: standard input: Is a directory\n"));
        tells("<&-", "", &format!("{name}: standard input: Bad file descriptor\n"));
        tells("<input >/dev/full", "", &format!("{name}: standard output: No space left on device\n"));
        tells("<input >&-", "", &format!("{name}: standard output: Bad file descriptor\n"));
        let printed = folder.run(&[job, "a.network", "a.plan"]).out;
        tells("<input", &printed, "");
        tells("</dev/null", "refused 1\n", "");
    }
}

//! The jobs: each reads its files, asks the library, and answers.

use crate::args::{help, Command, Job};
use crate::failure::Failure;
use crate::files::{self, Input, Name, Output};
use crate::hints;
use crate::json::{Object, Value};
use crate::listing;
use crate::reply::{print, Reply, Status, Stream};
use crate::sheet;
use crate::text;
use pudeyan::{Network, Plan, Refusal};

/// As many octets of a record are read: every record is shorter, so what
/// remains is refused as octets that remain.
const RECORD_READ: u64 = 65_536;

pub fn run(Command { job, json }: Command) -> Result<Status, Failure> {
    let to_output = |reply: Reply| reply.tell(json, Stream::Output);
    match job {
        Job::Help => print(&help()).map(|()| Status::Answered),
        Job::Version => {
            print(&format!("{} {}\n", crate::PROGRAM, env!("CARGO_PKG_VERSION"))).map(|()| Status::Answered)
        }
        Job::Plan { network, amount, out } => plan(&network, amount, &out, json),
        Job::Most { network, horizon } => to_output(most(&record(&network)?, horizon)),
        Job::Examine { network, plan } => to_output(examine(&record(&network)?, &record(&plan)?)),
        Job::Show { network, plan } => to_output(show(&record(&network)?, &record(&plan)?)),
        Job::Replay { network, log } => to_output(replay(&record(&network)?, &record(&log)?)),
        Job::Sheet { network, plan } => to_output(sheet(&record(&network)?, &record(&plan)?)),
        Job::Pack { text, out } => pack(&text, &out, json),
        Job::Print { network } => to_output(print_network(&record(&network)?)),
    }
}

fn record(name: &Name) -> Result<Input, Failure> {
    files::read(name, RECORD_READ)
}

/// The object of a job's answer.
fn object(job: &'static str) -> Object {
    Object::new().put("job", job)
}

/// Where words go while a record goes to `out`.
fn beside(out: &Output) -> Stream {
    if out.is_standard() {
        Stream::Error
    } else {
        Stream::Output
    }
}

fn plan(network: &Name, amount: u64, out: &Name, json: bool) -> Result<Status, Failure> {
    let network = record(network)?;
    let out = Output::choose(out, &[&network])?;
    let object = object("plan");
    let reply = match pudeyan::plan(&network.octets, amount) {
        Err(refusal) => Reply::refused(object, refusal, hints::in_network(&network.octets, refusal)),
        Ok(plan) => {
            out.write(plan.record())?;
            let (horizon, length) = (plan.horizon(), plan.record().len());
            let object = object.put("amount", plan.amount()).put("horizon", horizon).put("length", length);
            Reply::answered(format!("horizon {horizon}\nlength {length}\n"), object)
        }
    };
    reply.tell(json, beside(&out))
}

fn most(network: &Input, horizon: u64) -> Reply {
    let object = object("most").put("horizon", horizon);
    match pudeyan::most(&network.octets, horizon) {
        Err(refusal) => Reply::refused(object, refusal, hints::in_network(&network.octets, refusal)),
        Ok(most) => {
            let words = format!("most {}\ncut{}\n", most.blocks, listing::spaced(&most.cut));
            let cut = most.cut.iter().copied().collect::<Value>();
            Reply::answered(words, object.put("most", most.blocks).put("cut", cut))
        }
    }
}

fn examine(network: &Input, plan: &Input) -> Reply {
    let object = object("examine");
    match pudeyan::examine(&network.octets, &plan.octets) {
        Err(refusal) => refused_records(object, refusal, network, plan),
        Ok(examined) => {
            let (verdict, bound) = (examined.verdict, examined.bound);
            let status = if verdict.is_right() { Status::Answered } else { Status::NotRight };
            let words = format!("{verdict}\nbound {bound}\n");
            let object = object.put("verdict", verdict.number()).put("words", verdict.words()).put("bound", bound);
            Reply { status, words, object }.with_hint(hints::of_verdict(&network.octets, &plan.octets, verdict))
        }
    }
}

fn refused_records(object: Object, refusal: Refusal, network: &Input, plan: &Input) -> Reply {
    let hint =
        hints::in_network(&network.octets, refusal).or_else(|| hints::in_plan(&network.octets, &plan.octets, refusal));
    Reply::refused(object, refusal, hint)
}

fn show(network: &Input, plan: &Input) -> Reply {
    let object = object("show");
    let shown = pudeyan::examine(&network.octets, &plan.octets)
        .and_then(|examined| Ok((examined, Plan::decode(&network.octets, &plan.octets)?)));
    match shown {
        Err(refusal) => refused_records(object, refusal, network, plan),
        Ok((examined, plan)) => {
            Reply::answered(listing::words(&examined, &plan), listing::object(object, &examined, &plan))
        }
    }
}

fn replay(network: &Input, log: &Input) -> Reply {
    let object = object("replay");
    match pudeyan::replay(&network.octets, &log.octets) {
        Err(refusal) => {
            let hint = hints::in_network(&network.octets, refusal)
                .or_else(|| hints::in_log(&network.octets, &log.octets, refusal));
            Reply::refused(object, refusal, hint)
        }
        Ok(replayed) => {
            let (finding, delivered) = (replayed.finding, replayed.delivered);
            let status = if finding.is_kept() { Status::Answered } else { Status::NotRight };
            let words = format!("{finding}\ndelivered {delivered}\n");
            let object =
                object.put("finding", finding.number()).put("words", finding.words()).put("delivered", delivered);
            Reply { status, words, object }.with_hint(hints::of_finding(&network.octets, &log.octets, finding))
        }
    }
}

fn sheet(network: &Input, plan: &Input) -> Reply {
    let object = object("sheet");
    match Plan::decode(&network.octets, &plan.octets) {
        Err(refusal) => refused_records(object, refusal, network, plan),
        Ok(plan) => Reply::answered(sheet::words(&plan), sheet::object(object, &plan)),
    }
}

fn pack(name: &Name, out: &Name, json: bool) -> Result<Status, Failure> {
    let input = files::read(name, text::OCTETS_MOST + 1)?;
    if input.octets.len() as u64 > text::OCTETS_MOST {
        return Err(Failure::new(format!("{input}: the text is longer than {} octets", text::OCTETS_MOST)));
    }
    let out = Output::choose(out, &[&input])?;
    let object = object("network pack");
    let text = match text::read(&input.octets) {
        Ok(text) => text,
        Err(faults) => {
            let stream = if json { beside(&out) } else { Stream::Error };
            return faulty(&input, &faults, object).tell(json, stream);
        }
    };
    let reply = match Network::new(text.places, text.origin, text.destination, &text.links) {
        Err(refusal) => Reply::refused(object, refusal, hints::in_text(&text, refusal)),
        Ok(network) => {
            out.write(network.record())?;
            let [places, links, length] = [network.places(), network.links().len(), network.record().len()];
            let object = object.put("places", places).put("links", links).put("length", length);
            Reply::answered(format!("places {places}\nlinks {links}\nlength {length}\n"), object)
        }
    };
    reply.tell(json, beside(&out))
}

/// What is wrong with a text, a line for each fault, up to some.
fn faulty(input: &Input, faults: &[text::Fault], object: Object) -> Reply {
    const TOLD_MOST: usize = 20;
    let told = faults.iter().take(TOLD_MOST);
    let mut words: String = told.map(|fault| format!("{input}: line {}: {}\n", fault.line, fault.words)).collect();
    if faults.len() > TOLD_MOST {
        words += &format!("{input}: {} more faults\n", faults.len() - TOLD_MOST);
    }
    let objects = faults.iter().map(|fault| Object::new().put("line", fault.line).put("words", fault.words.as_str()));
    Reply { status: Status::Refused, words, object: object.put("faults", objects.collect::<Value>()) }
}

fn print_network(network: &Input) -> Reply {
    let object = object("network print");
    match Network::decode(&network.octets) {
        Err(refusal) => Reply::refused(object, refusal, hints::in_network(&network.octets, refusal)),
        Ok(network) => {
            let links = network.links().iter().map(|link| {
                let ends = Object::new().put("start", link.start).put("end", link.end);
                ends.put("capacity", link.capacity).put("transit", link.transit)
            });
            let object = object
                .put("places", network.places())
                .put("origin", network.origin())
                .put("destination", network.destination())
                .put("links", links.collect::<Value>());
            Reply::answered(text::print(&network), object)
        }
    }
}

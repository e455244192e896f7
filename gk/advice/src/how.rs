//! The chain behind a refusal 9 in words: how what a thing holds could get into a file, were the call let through. One
//! wording for every tool.
//!
//! That the chain does so is proved, of the archive ([`gk_chain::behind`]); these are its words.

use gatekeeper::{Call, Kind, Refusal};
use gk_chain::{By, Link, Thing};

/// What is proved of a chain, said where one is shown.
pub const PROVED: &str =
    "Proved (RULES A1 to A12): none of these reads and writes would be refused; no chain is shorter.";

/// How what a thing holds could get into a file.
#[derive(Clone, Debug, Default, PartialEq, Eq)]
pub struct How {
    /// "This is how file 1 could get into file 0, were it let through", without a colon.
    pub title: String,
    /// What the steps do, in order.
    pub acts: Vec<Act>,
}

/// What one step does, or one thread of a step.
#[derive(Clone, Debug, PartialEq, Eq)]
pub struct Act {
    /// "step 0 reads file 1 and writes file 0".
    pub text: String,
    /// Its reads and writes, were the call let through.
    pub calls: Vec<Call>,
}

/// The chain that is told of a refusal, each thing with what it is called. None where it is empty.
pub fn how(chain: &[(Link, String)], refusal: Refusal) -> Option<How> {
    let ((low, low_name), (_, high_name)) = (chain.first()?, chain.last()?);
    let front = match (low.thing, low.kind) {
        (Thing::Step(_), _) => format!("what {low_name} has"),
        (_, Some(Kind::Pipe)) => format!("what is in {low_name}"),
        _ => low_name.to_string(),
    };
    let were = if refusal == Refusal::Frozen {
        "were the books open and it let through"
    } else {
        "were it let through"
    };
    let title = format!("This is how {front} could get into {high_name}, {were}");
    Some(How { title, acts: acts(chain) })
}

/// What the steps of a chain do. What one has just written, the next one reads: it is named once.
fn acts(chain: &[(Link, String)]) -> Vec<Act> {
    let mut acts: Vec<Act> = Vec::new();
    let mut last = None;
    for (index, pair) in chain.windows(2).enumerate() {
        let [(from, from_name), (to, to_name)] = pair else { continue };
        let (step, name, deed, call) = match (to.thing, to.by) {
            (Thing::Step(s), By::Handle { place, .. }) => {
                let what = if index == 0 { from_name } else { "it" };
                (s, to_name, format!("reads {what}"), Some(Call::Read { subject: s, place }))
            }
            (Thing::Step(s), By::Run) => (s, to_name, format!("runs {from_name}"), None),
            (Thing::Object(_), By::Handle { step, place }) => {
                (step, from_name, format!("writes {to_name}"), Some(Call::Write { subject: step, place }))
            }
            // What the threads of a step share is nobody's read or write.
            _ => continue,
        };
        match acts.last_mut().filter(|_| last == Some(step) && from.thing == Thing::Step(step)) {
            Some(act) => {
                act.text.push_str(&format!(" and {deed}"));
                act.calls.extend(call);
            }
            None => {
                let mate = if from.by == By::Shared { ", a thread of the same step," } else { "" };
                acts.push(Act { text: format!("{name}{mate} {deed}"), calls: call.into_iter().collect() });
            }
        }
        last = Some(step);
    }
    acts
}

impl How {
    /// In one sentence; of more acts than this the middle is left out.
    pub fn sentence(&self, most: usize) -> String {
        format!("{}: {}.", self.title, self.shown(most).join("; "))
    }

    /// The acts, of which the middle is left out where there are more than this.
    pub fn shown(&self, most: usize) -> Vec<String> {
        let mut acts: Vec<String> = self.acts.iter().map(|act| act.text.clone()).collect();
        if acts.len() > most {
            let (kept, left) = (most.saturating_sub(1), acts.len() - most.saturating_sub(1));
            acts.splice(kept - kept / 2..kept - kept / 2 + left, [format!("{left} more in the same way")]);
        }
        acts
    }
}

#[cfg(test)]
mod tests {
    use super::*;
    use gatekeeper::{Monitor, State};
    use gk_chain::chain_of;

    /// What is said of a call that is refused, with kinds and numbers for names; and its reads and writes.
    #[track_caller]
    fn told(monitor: &mut Monitor, call: Call) -> (How, Vec<Call>) {
        let state = State::from(&*monitor);
        let refusal = monitor.call(call).granted().expect_err("it is refused");
        let name = |link: &Link| match (link.thing, link.kind) {
            (Thing::Step(s), _) => format!("step {s}"),
            (Thing::Object(o), Some(Kind::Pipe)) => format!("pipe {o}"),
            (Thing::Object(o), _) => format!("file {o}"),
        };
        let links = chain_of(&state, refusal, call.code(), call.numbers());
        let chain: Vec<(Link, String)> = links.into_iter().map(|link| (link, name(&link))).collect();
        let how = how(&chain, refusal).expect("it has a chain");
        let calls = how.acts.iter().flat_map(|act| act.calls.clone()).collect();
        (how, calls)
    }

    /// Step 0 of level 9 writes file 0 of level 9, the pay book, at place 0; file 1 has level 2.
    fn book() -> Result<Monitor, Refusal> {
        let mut monitor = Monitor::new();
        monitor.admit(0, 9, 255).granted()?;
        monitor.register(0, 9, 255).granted()?;
        monitor.register(1, 2, 255).granted()?;
        monitor.open_write(0, 0, 0).granted()?;
        Ok(monitor)
    }

    #[test]
    fn each_call_is_told() -> Result<(), Refusal> {
        let mut monitor = book()?;
        let (read, write) = (
            |subject, place| Call::Read { subject, place },
            |subject, place| Call::Write { subject, place },
        );
        let opens = Call::OpenRead { subject: 0, object: 1, place: 3 };
        let maps = Call::Map { subject: 0, object: 1, place: 3 };
        for call in [opens, maps] {
            let (how, calls) = told(&mut monitor, call);
            let words = "This is how file 1 could get into file 0, were it let through: step 0 reads file 1 and writes file 0.";
            assert_eq!(how.sentence(1), words);
            assert_eq!(calls, [read(0, 3), write(0, 0)]);
        }
        // Running the file is no read of a handle.
        let (how, calls) = told(&mut monitor, Call::Exec { subject: 0, object: 1 });
        let words = "This is how file 1 could get into file 0, were it let through: step 0 runs file 1 and writes file 0.";
        assert_eq!((how.sentence(9).as_str(), &calls[..]), (words, &[write(0, 0)][..]));

        monitor.admit(1, 5, 255).granted()?;
        let (how, calls) = told(&mut monitor, Call::OpenWrite { subject: 1, object: 0, place: 4 });
        let words =
            "This is how what step 1 has could get into file 0, were it let through: step 1 writes file 0.";
        assert_eq!((how.sentence(9).as_str(), &calls[..]), (words, &[write(1, 4)][..]));
        let connect = Call::Connect { subject: 0, peer: 1, to: 5, from: 6, reading: 1, writing: 2 };
        let (how, calls) = told(&mut monitor, connect);
        let words = "This is how what step 1 has could get into file 0, were it let through: step 1 writes pipe 6; step 0 \
                     reads it and writes file 0.";
        assert_eq!(
            (how.sentence(9).as_str(), &calls[..]),
            (words, &[write(1, 2), read(0, 1), write(0, 0)][..])
        );
        Ok(())
    }

    #[test]
    fn a_thread_that_goes_on_is_said_to_be_one() -> Result<(), Refusal> {
        let mut monitor = book()?;
        monitor.thread(0, 3).granted()?;
        let (how, calls) = told(&mut monitor, Call::OpenRead { subject: 3, object: 1, place: 0 });
        let acts: Vec<&str> = how.acts.iter().map(|act| act.text.as_str()).collect();
        assert_eq!(acts, ["step 3 reads file 1", "step 0, a thread of the same step, writes file 0"]);
        assert_eq!(calls, [Call::Read { subject: 3, place: 0 }, Call::Write { subject: 0, place: 0 }]);
        Ok(())
    }

    /// What stands in a pipe: its writer has gone, and it is as low as what was written.
    #[test]
    fn a_pipe_may_be_the_front() -> Result<(), Refusal> {
        let mut monitor = book()?;
        monitor.admit(1, 5, 255).granted()?;
        monitor.pipe(1, 8, 0, 1).granted()?;
        monitor.close(1, 1).granted()?;
        let (how, _) = told(&mut monitor, Call::OpenRead { subject: 0, object: 8, place: 1 });
        assert_eq!(how.title, "This is how what is in pipe 8 could get into file 0, were it let through");
        Ok(())
    }

    /// RULES R117: that of a 15 is told of open books.
    #[test]
    fn a_fifteen_is_told_of_open_books() -> Result<(), Refusal> {
        let mut monitor = book()?;
        monitor.admit(1, 5, 255).granted()?;
        monitor.freeze(9).granted()?;
        let (how, _) = told(&mut monitor, Call::OpenWrite { subject: 1, object: 0, place: 4 });
        let title =
            "This is how what step 1 has could get into file 0, were the books open and it let through";
        assert_eq!(how.title, title);
        Ok(())
    }

    #[test]
    fn the_middle_of_a_long_one_is_left_out() {
        let act = |n: usize| Act { text: format!("{n}"), calls: Vec::new() };
        let how = |count| How { title: "It".to_string(), acts: (1..=count).map(act).collect() };
        assert_eq!(how(5).sentence(5), "It: 1; 2; 3; 4; 5.");
        assert_eq!(how(6).sentence(5), "It: 1; 2; 2 more in the same way; 5; 6.");
        assert_eq!(how(48).shown(4), ["1", "2", "45 more in the same way", "48"]);
        assert_eq!(how(3).sentence(usize::MAX), "It: 1; 2; 3.");
    }
}

//! Threads of a process: steps of their own, which hold nothing.
//!
//! The kernel gives the threads of a process one memory and one table of descriptors, and in the journal they are threads
//! of one step (call 18). The number of the process holds every handle of the table, whichever thread has opened it, and
//! makes every call on it; it is there until the last of them has ended, as the process is. The others hold nothing. So
//! whether one of them is there changes no answer to another call, and a thread can be taken for its process: where there
//! is no number for it, where a process needs its number, and with `--one-step`. `docs/TRACE.md` says why.

use gatekeeper::Call;

use crate::names::Kind;
use crate::report::Note;
use crate::world::{Done, World, STEPS};

/// A thread that has a number of its own.
pub struct Thread {
    /// The step that has the handles.
    pub holder: u64,
    pub number: u64,
}

impl World<'_> {
    /// A thread begins. The key of its number, where there is one for it.
    pub fn start_thread(&mut self, process: u32, step: u64) -> Done<Option<u64>> {
        let Some(number) = self.free_number().filter(|_| !self.options.one_step) else {
            self.note(Note::Threads);
            return Ok(None);
        };
        let own = self.tasks.get(&process).and_then(|task| self.threads.get(&task.thread?));
        let subject = own.map_or(step, |own| own.number);
        self.make(Call::Thread { subject, member: number })?;
        let from = self.journal.next() - 1;
        let name = format!("{} thread", self.step(step)?.program);
        self.journal.names.give_new(Kind::Step, number, from, &name);
        let key = self.tick();
        self.threads.insert(key, Thread { holder: step, number });
        Ok(Some(key))
    }

    /// A thread ends, or is taken for its process from now on.
    pub fn end_thread(&mut self, key: Option<u64>) -> Done {
        let Some(thread) = key.and_then(|key| self.threads.remove(&key)) else { return Ok(()) };
        self.make(Call::Exit { subject: thread.number })?;
        Ok(())
    }

    /// All threads of a step end.
    pub fn end_threads(&mut self, step: u64) -> Done {
        let is_of_step = |(_, thread): &(&u64, &Thread)| thread.holder == step;
        let keys: Vec<u64> = self.threads.iter().filter(is_of_step).map(|(&key, _)| key).collect();
        keys.into_iter().try_for_each(|key| self.end_thread(Some(key)))
    }

    /// A number that nobody has.
    fn free_number(&self) -> Option<u64> {
        let is_thread = |number: u64| self.threads.values().any(|thread| thread.number == number);
        (0..STEPS).find(|&number| self.steps[number as usize].is_none() && !is_thread(number))
    }

    /// A number for a process, which is wanted for what the words say. Where there is none, the youngest thread gives it.
    pub fn free_step(&mut self, wanted: &str) -> Done<u64> {
        if self.free_number().is_none() {
            if let Some(&youngest) = self.threads.keys().next_back() {
                self.note(Note::Threads);
                self.end_thread(Some(youngest))?;
            }
        }
        match self.free_number() {
            Some(number) => Ok(number),
            None => self.stop(format!(
                "{wanted} would be the 33rd step at once, and the gatekeeper has numbers for 32. Trace a part of the \
                 run, or give --until {}: it ends before this line",
                self.line - 1
            )),
        }
    }
}

//! Importers: steps that map sheets. Others write to these, map them too, or have them open; the importers
//! fork, run programs and close what they mapped (RULES C8 to C10, C14).

use super::Draft;
use crate::tables::{Kind, LIMITS};

/// Who has mapped which sheet, and where.
#[derive(Clone, Copy)]
struct Import {
    s: u64,
    sheet: u64,
    p: u64,
}

impl Draft {
    /// A sheet is mapped, and then used.
    pub(super) fn import(&mut self) {
        let odd = std::mem::replace(&mut self.odd_numbers, 0);
        let import = self.importer();
        self.record(14, &[import.s, import.sheet, import.p]);
        for _ in 0..self.random.between(2, 7) {
            self.import_turn(import);
        }
        self.odd_numbers = odd;
    }

    /// A subject, most often new, and a sheet: of its level, of any, or so low that the map lowers it.
    fn importer(&mut self) -> Import {
        let s = if self.random.once_in(3) { self.live_subject() } else { self.new_step() };
        let level = match self.random.below(4) {
            0 => self.level_of(s),
            1 => self.level(),
            _ => self.levels[0],
        };
        let sheet = self.file_at(level);
        Import { s, sheet, p: self.free_place(s) }
    }

    /// A subject that is admitted, as a rule at the highest level.
    pub(super) fn new_step(&mut self) -> u64 {
        let s = self.free_subject();
        let top = self.levels.last().copied().unwrap_or(15);
        let level = if self.random.once_in(4) { self.level() } else { top };
        self.admit(s, level);
        s
    }

    pub(super) fn level_of(&self, s: u64) -> u64 {
        self.picture.tables().subject(s).map_or(0, |subject| subject.level)
    }

    fn import_turn(&mut self, import: Import) {
        let Import { s, sheet, p } = import;
        match self.random.below(20) {
            0 | 1 => self.map_again(import),
            2 => self.map_by_another(sheet),
            3 | 4 => self.write_to_sheet(import),
            5 => self.fork_importer(import),
            6 | 7 => self.run_by_importer(import),
            8 => self.run_refused(import),
            9 | 10 => self.use_mapping(),
            11 => self.place_used_again(import),
            12 => self.number_used_again(import),
            13..=15 => self.map_unfit(import),
            16 => self.record(13, &[sheet]),
            17 => {
                // Beside the mapping, the sheet is open for reading as well.
                let q = self.free_place(s);
                self.record(5, &[s, sheet, q]);
            }
            18 => self.record(7, &[s, p]),
            _ => self.any_call(),
        }
    }

    /// The same subject maps the sheet once more, at another place; one of the two may go.
    fn map_again(&mut self, Import { s, sheet, p }: Import) {
        let q = self.free_place(s);
        self.record(14, &[s, sheet, q]);
        if self.random.once_in(2) {
            self.record(11, &[s, p]);
            self.record(7, &[s, q]);
        }
    }

    fn map_by_another(&mut self, sheet: u64) {
        let t = if self.random.once_in(2) { self.live_subject() } else { self.new_step() };
        let p = self.free_place(t);
        self.record(14, &[t, sheet, p]);
    }

    /// The sheet is written to: by the importer, or by another step, whose level is asked for after it.
    fn write_to_sheet(&mut self, Import { s, sheet, .. }: Import) {
        let writer = match self.random.below(3) {
            0 => s,
            1 => self.live_subject(),
            _ => self.new_step(),
        };
        let w = self.free_place(writer);
        self.record(6, &[writer, sheet, w]);
        for _ in 0..self.random.between(1, 3) {
            self.record(8, &[writer, w]);
        }
        if self.random.once_in(2) {
            self.use_mapping();
        }
        if self.random.once_in(2) {
            self.record(11, &[writer, w]);
        }
    }

    /// A child has the mappings, and beside them a plain reading handle; it runs a program, and so may its
    /// parent.
    fn fork_importer(&mut self, Import { s, sheet, p }: Import) {
        let q = self.free_place(s);
        if self.random.once_in(2) {
            self.record(5, &[s, sheet, q]);
        }
        let c = self.free_subject();
        self.record(9, &[s, c]);
        let runner = if self.random.once_in(3) { s } else { c };
        let program = self.program_for(runner);
        self.record(10, &[runner, program]);
        for (t, place) in [(c, p), (c, q), (s, p)] {
            self.record(7, &[t, place]);
        }
    }

    /// A program that the step may run, as a rule.
    fn program_for(&mut self, s: u64) -> u64 {
        let level = if self.random.once_in(3) { self.level() } else { self.level_of(s) };
        self.file_at(level)
    }

    /// The importer runs a program: its mappings go, its other handles stay.
    fn run_by_importer(&mut self, Import { s, sheet, p }: Import) {
        if self.random.once_in(3) {
            let q = self.free_place(s);
            self.record(5, &[s, sheet, q]);
        }
        if self.random.once_in(4) {
            self.record(15, &[s, p]);
        }
        let program = self.program_for(s);
        self.record(10, &[s, program]);
        let again = self.random.pick(&[7, 11, 14]).unwrap_or(7);
        if again == 14 {
            self.record(14, &[s, sheet, p]);
        } else {
            self.record(again, &[s, p]);
        }
    }

    /// An exec that is refused, for what the importer writes to or for what it names: its mappings stay.
    fn run_refused(&mut self, Import { s, p, .. }: Import) {
        match self.random.below(3) {
            0 => {
                let pipe = self.live_object(Some(Kind::Pipe));
                self.record(10, &[s, pipe]);
            }
            1 => {
                let missing = self.free_object();
                self.record(10, &[s, missing]);
            }
            _ => {
                let level = self.level_of(s);
                let (high, w) = (self.file_at(level), self.free_place(s));
                self.record(6, &[s, high, w]);
                let low = self.file_at(self.levels[0]);
                self.record(10, &[s, low]);
            }
        }
        self.record(7, &[s, p]);
    }

    /// Some mapping is read, written to, marked or closed.
    fn use_mapping(&mut self) {
        let mapped = self.picture.tables().handles().filter(|(_, _, handle)| handle.mapped);
        let mapped: Vec<(u64, u64)> = mapped.map(|(s, p, _)| (s, p)).collect();
        if let Some((s, p)) = self.random.pick(&mapped) {
            let code = self.random.pick(&[7, 7, 7, 8, 11, 15]).unwrap_or(7);
            self.record(code, &[s, p]);
        }
    }

    /// What is opened for reading where a mapping was closed, by a close or by an exec, is none: an exec leaves
    /// it.
    fn place_used_again(&mut self, Import { s, sheet, p }: Import) {
        if self.random.once_in(2) {
            self.record(11, &[s, p]);
        } else {
            let program = self.program_for(s);
            self.record(10, &[s, program]);
        }
        self.record(5, &[s, sheet, p]);
        let program = self.program_for(s);
        self.record(10, &[s, program]);
        self.record(7, &[s, p]);
    }

    /// The same where the importer has exited and its number is used again.
    fn number_used_again(&mut self, Import { s, sheet, p }: Import) {
        self.record(12, &[s]);
        let level = self.level();
        self.admit(s, level);
        self.record(5, &[s, sheet, p]);
        let program = self.file_at(level);
        self.record(10, &[s, program]);
        self.record(7, &[s, p]);
    }

    /// A map that is refused for its pipe, its place, or both; or an open for reading with these numbers.
    fn map_unfit(&mut self, Import { s, sheet, p }: Import) {
        let pipe = self.live_object(Some(Kind::Pipe));
        let o = if self.random.once_in(2) { sheet } else { pipe };
        let free = self.free_place(s);
        let place = self.random.pick(&[p, LIMITS.places, free]).unwrap_or(p);
        let code = if self.random.once_in(4) { 5 } else { 14 };
        self.record(code, &[s, o, place]);
    }
}

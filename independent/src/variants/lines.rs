//! Wrong variants of typed lines (RULES L1 to L14, R18, R19, R125): which bytes are a line, which calls they stand
//! for, in which order, and what is answered.
//!
//! `LineRules` says which one is on; by default none is, and then every function here leaves the rules as they are.
//! Each variant is read at exactly one place here.

mod bytes;

use crate::calls::filled;
use crate::lines::{judge, read, Child, Counts, DirectCall, Made, Parts, Stage, Start};
use crate::lines::{MOST_STAGES, READING_PLACE, WRITING_PLACE};
use crate::monitor::{Answer, Monitor};
use crate::tables::LIMITS;

variants! {
    LineVariant LINES;
    // Which bytes are a line.
    WriteFirst "write-first" "takes a `>` before a `<`";
    TwiceTaken "twice-taken" "takes a second `<` or `>` in the place of the first";
    LoneSignTaken "lone-sign-taken" "passes over a `<` or `>` without a number";
    LeadingZero "leading-zero" "takes a number with zeros in front";
    AboveModulo "above-modulo" "takes a number above 18446744073709551615 modulo 2 to the 64th";
    AboveAsLargest "above-as-largest" "takes a number above 18446744073709551615 as that one";
    LargestNumberRefused "largest-number-refused" "does not take 18446744073709551615";
    Signed "signed" "does not take numbers of 2 to the 63rd or above";
    SpaceInNumber "space-in-number" "takes a number with spaces inside";
    SideBySide "side-by-side" "takes two numbers side by side as the first";
    TabTaken "tab-taken" "takes a tab as a space";
    NewlineTaken "newline-taken" "takes a newline as a space";
    OthersSkipped "others-skipped" "passes over bytes that are in no line";
    SpacesRefused "spaces-refused" "takes no spaces";
    EndSpacesRefused "end-spaces-refused" "takes no spaces at the ends";
    EmptyTaken "empty-taken" "takes a line without bytes, or of spaces alone, as no pipelines";
    TrailingSemicolon "trailing-semicolon" "takes a `;` at the end";
    LeadingSemicolon "leading-semicolon" "takes a `;` at the front";
    DoubledSemicolon "doubled-semicolon" "takes two `;` as one";
    TrailingBar "trailing-bar" "takes a `|` at the end";
    DoubledBar "doubled-bar" "takes two `|` as one";
    SemicolonAsBar "semicolon-as-bar" "takes `;` as `|`";
    BarAsSemicolon "bar-as-semicolon" "takes `|` as `;`";
    // Which refusal is said, and what it leaves.
    NineteenBefore18 "19-before-18" "says 19 before 18";
    NineteenAs18 "19-as-18" "says 18 where 19 is to be said";
    EightRefused "eight-refused" "refuses a pipeline of eight stages";
    NineTaken "nine-taken" "takes a pipeline of nine stages";
    FirstPipelineOnly "first-pipeline-only" "asks the first pipeline only whether it is too long";
    StagesOfLine "stages-of-line" "refuses a line of more than eight stages, in however many pipelines";
    BadLineRun "bad-line-run" "says 18, and runs the pipelines before the one that goes wrong";
    BadStagesRun "bad-stages-run" "says 18, and runs what is read up to the stage that goes wrong";
    LongLineRun "long-line-run" "says 19, and runs the pipelines before the one that is too long";
    LongLineCut "long-line-cut" "says 19, and runs the first eight stages of each pipeline";
    // Which calls a line stands for.
    ShellIs0 "shell-is-0" "takes subject 0 for the shell";
    ChildrenFrom1 "children-from-1" "counts children from 1";
    PipesFrom1 "pipes-from-1" "counts pipes from 1";
    ChildrenAsThreads "children-as-threads" "makes each child by a thread, and not by a fork";
    ChildrenGoOn "children-go-on" "children's numbers go on at `;`";
    PipesGoOn "pipes-go-on" "pipes' numbers go on at `;`";
    ChildrenStay "children-stay" "children's numbers do not go beyond 18446744073709551615";
    ChildrenMod32 "children-mod-32" "children's numbers go on modulo 32";
    ChildrenMod32Bits "children-mod-32-bits" "children's numbers go on modulo 2 to the 32nd";
    PipesStay "pipes-stay" "pipes' numbers do not go beyond 18446744073709551615";
    PipesMod32Bits "pipes-mod-32-bits" "pipes' numbers go on modulo 2 to the 32nd";
    EndsTheOtherWay "ends-the-other-way" "pipe i writes at place 2i and reads at 2i + 1";
    KeepsReadingEnd "keeps-reading-end" "a child keeps the reading end of the pipe behind it";
    KeepsWritingEnd "keeps-writing-end" "a child keeps the writing end of the pipe before it";
    KeepsAllEnds "keeps-all-ends" "a child closes nothing";
    ClosesOwnPipesOnly "closes-own-pipes-only" "a child closes ends of the two pipes beside it only";
    ClosesAllEnds "closes-all-ends" "a child closes the ends that it uses as well";
    ClosesInherited "closes-inherited" "a child closes every place but the two that it uses";
    RedirectsSwapped "redirects-swapped" "a child opens `<` at place 15 and `>` at 14";
    ShellKeepsEnds "shell-keeps-ends" "the shell closes nothing";
    ShellKeepsWriting "shell-keeps-writing" "the shell closes its reading ends only";
    NoExits "no-exits" "the children do not leave";
    // In which order they are made.
    PipesFalling "pipes-falling" "the shell makes the last pipe first";
    PipesWhileForking "pipes-while-forking" "the shell makes each pipe just before the child that writes to it";
    ForksFirst "forks-first" "the shell makes all children before the first of them does anything";
    ChildClosesFalling "child-closes-falling" "a child closes in falling order";
    OpensBeforeCloses "opens-before-closes" "a child opens before it closes";
    WriteOpenedFirst "write-opened-first" "a child opens `>` before `<`";
    ExecBeforeOpens "exec-before-opens" "a child runs its program before it opens";
    ShellClosesFalling "shell-closes-falling" "the shell closes in falling order";
    ShellClosesEarly "shell-closes-early" "the shell closes a pipe's end as soon as the child that uses it is done";
    ShellClosesFirst "shell-closes-first" "the shell makes all children and closes before they do anything";
    ExitsAtOnce "exits-at-once" "a child leaves right after it has run its program";
    ExitsBeforeCloses "exits-before-closes" "the children leave before the shell closes";
    ExitsFalling "exits-falling" "the children leave in falling order";
    // Which of them are made.
    StopsAtRefusal "stops-at-refusal" "makes no call after one that is refused";
    PipelineStops "pipeline-stops" "makes no call of a pipeline after one that is refused";
    NextOnlyIfAllowed "next-only-if-allowed" "runs no pipeline after one in which a call was refused";
    NoForkNoCalls "no-fork-no-calls" "where a fork is refused, makes no call by that child";
    NoOpenNoExec "no-open-no-exec" "where a stage's open is refused, does not run its program";
    // What is answered and handed back.
    OneCount "one-count" "each of the three counts is that of all calls";
    LoweredWithAllowed "lowered-with-allowed" "counts lowered calls as allowed";
    LoweredTwice "lowered-twice" "counts lowered calls as allowed, too";
    LostWithAllowed "lost-with-allowed" "counts lowered calls that took marks away as allowed";
    MarksCounted "marks-counted" "counts the marks lost, not the lowered calls";
    RefusedUncounted "refused-uncounted" "does not count refused calls";
    CountsSwapped "counts-swapped" "gives the lowered ones before the allowed ones";
    LastPipelineCounted "last-pipeline-counted" "counts the calls of the last pipeline only";
    CountsMod256 "counts-mod-256" "counts modulo 256";
    LineKeepsMonitor "line-keeps-monitor" "hands the old monitor back";
    LineKeepsTally "line-keeps-tally" "leaves the tally as it was";
}

/// These leave the same answer, the same tables and the same tally: only the list of calls tells them apart. A close is
/// refused where its own subject is not live or its own place is empty, and an exit where its own subject is not live;
/// so a row of closes by one subject, or of exits, comes to the same in any order.
pub const ONLY_BY_CALLS: &[&str] = &["child-closes-falling", "shell-closes-falling", "exits-falling"];

/// A line that was read.
type Line = Vec<Vec<Stage>>;

/// Which rules hold for lines: those of docs/RULES.md, or one variant of them.
#[derive(Clone, Copy, Debug, Default, PartialEq, Eq)]
pub struct LineRules {
    variant: Option<LineVariant>,
}

impl From<LineVariant> for LineRules {
    fn from(variant: LineVariant) -> LineRules {
        LineRules { variant: Some(variant) }
    }
}

impl LineRules {
    /// The rules of the variant with this name.
    pub fn named(name: &str) -> Option<LineRules> {
        let (variant, _, _) = LINES.iter().find(|(_, word, _)| *word == name)?;
        Some(LineRules::from(*variant))
    }

    /// Whether these are the rules of docs/RULES.md.
    pub fn are_right(self) -> bool {
        self.variant.is_none()
    }

    /// The pipelines to run, or the refusal's number; with it the pipelines that are run all the same.
    pub(crate) fn bend_judged(self, line: &[u8], right: Result<Line, u8>) -> Result<Line, (u8, Line)> {
        let Some(variant) = self.variant else {
            return right.map_err(|number| (number, Line::new()));
        };
        let bent = match bytes::bend(variant, line) {
            Some(bytes) => judge(&bytes),
            None => right,
        };
        let bent = self.bend_refusal(line, bent);
        bent.map_err(|number| (number, self.run_all_the_same(number, line)))
    }

    fn bend_refusal(self, line: &[u8], right: Result<Line, u8>) -> Result<Line, u8> {
        let long = |stages: &Vec<Stage>, most: usize| stages.len() > most;
        match (self.variant, &right) {
            (Some(LineVariant::EmptyTaken), Err(18)) if line.iter().all(|&byte| byte == 32) => {
                Ok(Line::new())
            }
            (Some(LineVariant::SpacesRefused), _) if line.contains(&32) => Err(18),
            (Some(LineVariant::EndSpacesRefused), _) if line.starts_with(b" ") || line.ends_with(b" ") => {
                Err(18)
            }
            (Some(LineVariant::LargestNumberRefused), Ok(read)) if has_number(read, u64::MAX) => Err(18),
            (Some(LineVariant::Signed), Ok(read)) if has_number(read, 1 << 63) => Err(18),
            (Some(LineVariant::NineteenBefore18), Err(18)) => {
                let bars = |part: &[u8]| part.iter().filter(|&&byte| byte == b'|').count();
                let is_long = line.split(|&byte| byte == b';').any(|part| bars(part) >= MOST_STAGES);
                Err(if is_long { 19 } else { 18 })
            }
            (Some(LineVariant::NineteenAs18), Err(19)) => Err(18),
            (Some(LineVariant::EightRefused), Ok(read)) if read.iter().any(|stages| long(stages, 7)) => {
                Err(19)
            }
            (Some(LineVariant::StagesOfLine), Ok(read)) if read.concat().len() > MOST_STAGES => Err(19),
            (Some(LineVariant::NineTaken), Err(19)) => {
                read(line).filter(|read| !read.iter().any(|stages| long(stages, 9))).ok_or(19)
            }
            (Some(LineVariant::FirstPipelineOnly), Err(19)) => {
                read(line).filter(|read| !long(&read[0], MOST_STAGES)).ok_or(19)
            }
            _ => right,
        }
    }

    /// The pipelines of a refused line that are run.
    fn run_all_the_same(self, number: u8, line: &[u8]) -> Line {
        let pipelines = || line.split(|&byte| byte == b';');
        let only = |part: &[u8]| read(part).and_then(|read| read.first().cloned());
        let is_short = |stages: &Vec<Stage>| stages.len() <= MOST_STAGES;
        match (self.variant, number) {
            (Some(LineVariant::BadLineRun), 18) => pipelines().map_while(only).filter(is_short).collect(),
            (Some(LineVariant::BadStagesRun), 18) => {
                let mut read: Line = pipelines().map_while(only).collect();
                let wrong = pipelines().nth(read.len()).unwrap_or(&[]);
                let stages = wrong.split(|&byte| byte == b'|').map_while(only).flatten();
                read.push(stages.collect());
                read.retain(is_short);
                read
            }
            (Some(LineVariant::LongLineRun), 19) => {
                pipelines().map_while(only).take_while(|stages| is_short(stages)).collect()
            }
            (Some(LineVariant::LongLineCut), 19) => {
                let cut = |stages: Vec<Stage>| stages.into_iter().take(MOST_STAGES).collect();
                pipelines().map_while(only).map(cut).collect()
            }
            _ => Line::new(),
        }
    }

    /// The first numbers of a pipeline that comes after these.
    pub(crate) fn bend_start(self, start: Start, before: &[Vec<Stage>]) -> Start {
        if self.are_right() {
            return start;
        }
        let Start { child, pipe, .. } = start;
        let children: u64 = before.iter().map(|stages| stages.len() as u64).sum();
        let pipes: u64 = before.iter().map(|stages| (stages.len() as u64).saturating_sub(1)).sum();
        match self.variant {
            Some(LineVariant::ShellIs0) => Start { shell: 0, ..start },
            Some(LineVariant::ChildrenFrom1) => Start { child: child.wrapping_add(1), ..start },
            Some(LineVariant::PipesFrom1) => Start { pipe: pipe.wrapping_add(1), ..start },
            Some(LineVariant::ChildrenGoOn) => Start { child: child.wrapping_add(children), ..start },
            Some(LineVariant::PipesGoOn) => Start { pipe: pipe.wrapping_add(pipes), ..start },
            _ => start,
        }
    }

    /// The calls of a pipeline, in their order.
    pub(crate) fn bend_parts(self, mut parts: Parts, start: Start) -> Vec<DirectCall> {
        match self.variant {
            None => parts.in_order(),
            Some(variant) => {
                bend_numbers(variant, &mut parts, start);
                bend_ends(variant, &mut parts);
                bend_rows(variant, &mut parts);
                in_bent_order(variant, parts)
            }
        }
    }

    /// Whether this call is not made, after those that were.
    pub(crate) fn skips(self, made: &[Made], pipeline: usize, (code, numbers): DirectCall) -> bool {
        let is_refused = |call: &&Made| matches!(call.answer, Answer::Refused(_));
        let mut refused = made.iter().filter(is_refused);
        match self.variant {
            Some(LineVariant::StopsAtRefusal) => refused.next().is_some(),
            Some(LineVariant::PipelineStops) => refused.any(|call| call.pipeline == pipeline),
            Some(LineVariant::NextOnlyIfAllowed) => refused.any(|call| call.pipeline < pipeline),
            Some(LineVariant::NoForkNoCalls) => {
                let is_own_fork = |call: &Made| call.code == 9 && call.numbers[1] == numbers[0];
                code != 9 && refused.any(|call| call.pipeline == pipeline && is_own_fork(call))
            }
            Some(LineVariant::NoOpenNoExec) => {
                let of_stage = made.iter().rev().take_while(|call| call.code != 9);
                let mut opens = of_stage.filter(|call| call.code == 5 || call.code == 6);
                code == 10 && opens.any(|call| is_refused(&call))
            }
            _ => false,
        }
    }

    pub(crate) fn bend_counts(self, made: &[Made], counts: Counts) -> Counts {
        let Counts { allowed, lowered, refused } = counts;
        match self.variant {
            Some(LineVariant::OneCount) => {
                let all = made.len() as u64;
                Counts { allowed: all, lowered: all, refused: all }
            }
            Some(LineVariant::LoweredWithAllowed) => {
                Counts { allowed: allowed + lowered, lowered: 0, refused }
            }
            Some(LineVariant::LoweredTwice) => Counts { allowed: allowed + lowered, lowered, refused },
            Some(LineVariant::LostWithAllowed) => {
                let took = made.iter().filter(|call| call.answer.marks_lost() > Some(0)).count() as u64;
                Counts { allowed: allowed + took, lowered: lowered - took, refused }
            }
            Some(LineVariant::MarksCounted) => {
                let lost = made.iter().filter_map(|call| call.answer.marks_lost()).sum();
                Counts { lowered: lost, ..counts }
            }
            Some(LineVariant::RefusedUncounted) => Counts { refused: 0, ..counts },
            Some(LineVariant::CountsSwapped) => Counts { allowed: lowered, lowered: allowed, refused },
            Some(LineVariant::LastPipelineCounted) => {
                let last = made.last().map(|call| call.pipeline);
                let mut counts = Counts::default();
                for call in made.iter().filter(|call| Some(call.pipeline) == last) {
                    counts.count(call.answer);
                }
                counts
            }
            Some(LineVariant::CountsMod256) => {
                Counts { allowed: allowed % 256, lowered: lowered % 256, refused: refused % 256 }
            }
            _ => counts,
        }
    }

    pub(crate) fn bend_monitor(self, before: Monitor, monitor: &mut Monitor) {
        match self.variant {
            Some(LineVariant::LineKeepsMonitor) => *monitor = before,
            Some(LineVariant::LineKeepsTally) => monitor.tally = before.tally,
            _ => {}
        }
    }
}

/// Whether a line names a number that is at least so large.
fn has_number(line: &Line, least: u64) -> bool {
    let numbers = |stage: &Stage| [Some(stage.program), stage.input, stage.output];
    line.iter().flatten().flat_map(numbers).flatten().any(|number| number >= least)
}

/// The numbers of children and pipes after the first.
fn bend_numbers(variant: LineVariant, parts: &mut Parts, Start { child, pipe, .. }: Start) {
    let any_child: Option<fn(u64, u64) -> u64> = match variant {
        LineVariant::ChildrenStay => Some(u64::saturating_add),
        LineVariant::ChildrenMod32 => Some(|first, i| first.wrapping_add(i) % 32),
        LineVariant::ChildrenMod32Bits => Some(|first, i| first.wrapping_add(i) % (1 << 32)),
        _ => None,
    };
    let any_pipe: Option<fn(u64, u64) -> u64> = match variant {
        LineVariant::PipesStay => Some(u64::saturating_add),
        LineVariant::PipesMod32Bits => Some(|first, i| first.wrapping_add(i) % (1 << 32)),
        _ => None,
    };
    if let Some(number) = any_child {
        for (i, (own, exit)) in (0..).zip(parts.children.iter_mut().zip(&mut parts.exits)) {
            let number = number(child, i);
            own.fork.1[1] = number;
            let calls = own.closes.iter_mut().chain(&mut own.opens).chain([&mut own.exec, exit]);
            calls.for_each(|call| call.1[0] = number);
        }
    }
    if let Some(number) = any_pipe {
        (0..).zip(&mut parts.pipes).for_each(|(i, call)| call.1[1] = number(pipe, i));
    }
}

/// Which children and which ends there are, and who closes which.
fn bend_ends(variant: LineVariant, parts: &mut Parts) {
    let ends = parts.closes.len() as u64;
    for (i, child) in (0..).zip(&mut parts.children) {
        let number = child.fork.1[1];
        let place = |call: &DirectCall| call.1[1];
        let close = |place: u64| (11, filled(&[number, place]));
        match variant {
            LineVariant::KeepsReadingEnd => child.closes.retain(|call| place(call) != 2 * i),
            LineVariant::KeepsWritingEnd => child.closes.retain(|call| place(call) + 1 != 2 * i),
            LineVariant::ChildrenAsThreads => child.fork.0 = 18,
            LineVariant::KeepsAllEnds => child.closes.clear(),
            LineVariant::ClosesOwnPipesOnly => {
                child.closes.retain(|call| place(call) == 2 * i || place(call) + 1 == 2 * i);
            }
            LineVariant::ClosesAllEnds => child.closes = (0..ends).map(close).collect(),
            LineVariant::ClosesInherited => {
                let others = (0..LIMITS.places).filter(|&place| place >= ends || !is_used_by(i, place));
                child.closes = others.map(close).collect();
            }
            LineVariant::RedirectsSwapped => {
                let other = |place: u64| READING_PLACE + WRITING_PLACE - place;
                child.opens.iter_mut().for_each(|call| call.1[2] = other(call.1[2]));
            }
            _ => {}
        }
    }
    match variant {
        LineVariant::EndsTheOtherWay => parts.pipes.iter_mut().for_each(|call| call.1.swap(2, 3)),
        LineVariant::ShellKeepsEnds => parts.closes.clear(),
        LineVariant::ShellKeepsWriting => parts.closes.retain(|call| call.1[1] % 2 == 0),
        LineVariant::NoExits => parts.exits.clear(),
        _ => {}
    }
}

/// The order within a row of calls that do the same.
fn bend_rows(variant: LineVariant, parts: &mut Parts) {
    match variant {
        LineVariant::PipesFalling => parts.pipes.reverse(),
        LineVariant::ChildClosesFalling => {
            parts.children.iter_mut().for_each(|child| child.closes.reverse())
        }
        LineVariant::WriteOpenedFirst => parts.children.iter_mut().for_each(|child| child.opens.reverse()),
        LineVariant::ShellClosesFalling => parts.closes.reverse(),
        LineVariant::ExitsFalling => parts.exits.reverse(),
        _ => {}
    }
}

/// The order of the parts.
fn in_bent_order(variant: LineVariant, parts: Parts) -> Vec<DirectCall> {
    let Parts { pipes, children, closes, exits } = parts;
    // The calls of each child in this order.
    let each = |order: &dyn Fn(u64, &Child) -> Vec<DirectCall>| -> Vec<DirectCall> {
        (0..).zip(&children).flat_map(|(i, child)| order(i, child)).collect()
    };
    let whole = |child: &Child| child.clone().in_order();
    let forks = each(&|_, child| vec![child.fork]);
    let work = each(&|_, child| whole(child)[1..].to_vec());
    match variant {
        LineVariant::PipesWhileForking => {
            let pipe = |i: u64| pipes.get(i as usize).copied().into_iter().collect();
            [each(&|i, child| [pipe(i), whole(child)].concat()), closes, exits].concat()
        }
        LineVariant::ForksFirst => [pipes, forks, work, closes, exits].concat(),
        LineVariant::ShellClosesFirst => [pipes, forks, closes, work, exits].concat(),
        LineVariant::OpensBeforeCloses => {
            let order = |Child { fork, closes, opens, exec }: &Child| {
                [&[*fork], &opens[..], &closes[..], &[*exec]].concat()
            };
            [pipes, each(&|_, child| order(child)), closes, exits].concat()
        }
        LineVariant::ExecBeforeOpens => {
            let order = |Child { fork, closes, opens, exec }: &Child| {
                [&[*fork], &closes[..], &[*exec], &opens[..]].concat()
            };
            [pipes, each(&|_, child| order(child)), closes, exits].concat()
        }
        LineVariant::ShellClosesEarly => {
            let done = |i: u64| -> Vec<DirectCall> {
                closes.iter().copied().filter(|call| is_used_by(i, call.1[1])).collect()
            };
            [pipes, each(&|i, child| [whole(child), done(i)].concat()), exits].concat()
        }
        LineVariant::ExitsAtOnce => {
            let order = |i: u64, child: &Child| [whole(child), vec![exits[i as usize]]].concat();
            [pipes, each(&order), closes].concat()
        }
        LineVariant::ExitsBeforeCloses => [pipes, each(&|_, child| whole(child)), exits, closes].concat(),
        _ => [pipes, each(&|_, child| whole(child)), closes, exits].concat(),
    }
}

/// RULES L9: whether child i uses the end at this place.
fn is_used_by(i: u64, place: u64) -> bool {
    place + 2 == 2 * i || place == 2 * i + 1
}

//! What is said of a line's calls: each with its answer, as `explain` tells a record, stage by stage; and the counts.

use gatekeeper::Call;

use super::calls::{calls_of, Part};
use super::reading::Pipeline;
use super::Made;
use crate::explain::Which;
use crate::names::Names;
use crate::text::paragraph;
use crate::trial::{Start, Trial};

impl Made {
    /// The calls, in order.
    pub fn calls(&self) -> Vec<Call> {
        let calls = self.pipelines.iter().flat_map(|pipeline| calls_of(&pipeline.stages, self.numbers));
        calls.map(|(_, call)| call).collect()
    }

    /// The calls with their answers in sentences, as the records behind those of the start, and the counts.
    pub fn text(&self, start: &Start, names: &Names, which: Which) -> String {
        let mut trial = Trial::new(start, names, which);
        let mut text = String::new();
        for (count, pipeline) in (1..).zip(&self.pipelines) {
            let mut over = None;
            for (part, call) in calls_of(&pipeline.stages, self.numbers) {
                let Some(told) = trial.call(call) else {
                    continue;
                };
                if over.is_none() {
                    text.push_str(&paragraph("", &format!("Pipeline {count}: {pipeline}")));
                }
                if over != Some(part) {
                    text.push_str(&heading(part, pipeline));
                }
                over = Some(part);
                text.push_str(&told);
            }
        }
        text + &trial.end("line")
    }
}

/// What stands over the calls of a part; nothing over the one stage of a pipeline.
fn heading(part: Part, pipeline: &Pipeline) -> String {
    match part {
        Part::Pipes => "Its pipes:\n".to_string(),
        Part::Stage(_) if pipeline.stages.len() == 1 => String::new(),
        Part::Stage(i) => format!("Stage {}: {}\n", i + 1, pipeline.stages[i]),
        Part::Ends => "The shell's ends of the pipes:\n".to_string(),
        Part::Exits => "The exits:\n".to_string(),
    }
}

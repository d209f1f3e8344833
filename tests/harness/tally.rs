//! What was counted in a run, and its report.

use std::collections::BTreeMap;

#[derive(Clone, Copy, PartialEq)]
pub enum Operation {
    Load,
    Pin,
    Search,
    Fold,
    Replay,
    Write,
    Widen,
    Waveform,
    Join,
    Generate,
}

pub const NAMES: [&str; 10] = ["load", "pin", "search", "fold", "replay", "write", "widen", "waveform", "join", "generate"];

#[derive(Default)]
pub struct Tally {
    pub jobs: u64,
    by_operation: [u64; 10],
    answers: [BTreeMap<&'static str, u64>; 10],
    refusals: [[u64; 22]; 10],
    folds_by_bits: BTreeMap<u64, u64>,
    loads_with: BTreeMap<&'static str, u64>,
    found_by_frame: BTreeMap<u64, u64>,
    /// Greatest depth of stack and number of measured jobs, of small and of large jobs.
    depth: [[(usize, u64); 2]; 10],
    pub large: u64,
    pub repeated: u64,
    pub fold_repeated_otherwise: u64,
    pub empty_loans: u64,
    spoiled: u64,
    spoiled_unnoticed: u64,
    pub differences: u64,
    pub damaged: u64,
}

impl Tally {
    pub fn job(&mut self, operation: Operation, large: bool) {
        self.jobs += 1;
        self.large += u64::from(large);
        self.by_operation[operation as usize] += 1;
    }

    pub fn answer(&mut self, operation: Operation, answer: &'static str) {
        *self.answers[operation as usize].entry(answer).or_default() += 1;
    }

    pub fn refusal(&mut self, operation: Operation, number: u32) {
        self.refusals[operation as usize][number as usize] += 1;
    }

    pub fn fold_of(&mut self, bits: u64) {
        *self.folds_by_bits.entry(bits.min(15)).or_default() += 1;
    }

    pub fn found_at(&mut self, frame: u64) {
        *self.found_by_frame.entry(frame.min(10)).or_default() += 1;
    }

    pub fn load_with(&mut self, feature: &'static str, present: bool) {
        *self.loads_with.entry(feature).or_default() += u64::from(present);
    }

    pub fn depth(&mut self, operation: Operation, large: bool, depth: usize) {
        let entry = &mut self.depth[operation as usize][usize::from(large)];
        *entry = (entry.0.max(depth), entry.1 + 1);
    }

    pub fn settled(&mut self, spoiled: bool, different: bool) {
        self.spoiled += u64::from(spoiled);
        self.spoiled_unnoticed += u64::from(spoiled && !different);
        self.differences += u64::from(different);
    }

    pub fn report(&self, seconds: f64) {
        println!("jobs                {:>9}   ({} large, {} repeated over other working memory)", self.jobs, self.large, self.repeated);
        println!("jobs per second     {:>9.0}   ({seconds:.1} s)", self.jobs as f64 / seconds);
        println!("\n{:<8} {:>9}  answers", "", "jobs");
        for (i, name) in NAMES.iter().enumerate() {
            let answers: Vec<String> = self.answers[i].iter().map(|(answer, count)| format!("{answer} {count}")).collect();
            println!("{name:<8} {:>9}  {}", self.by_operation[i], answers.join(", "));
        }
        self.report_refusals();
        let list = |map: &BTreeMap<u64, u64>| map.iter().map(|(key, count)| format!("{key}: {count}")).collect::<Vec<_>>().join("  ");
        println!("\nfolds by free bits (15: or more)   {}", list(&self.folds_by_bits));
        println!("found by frame (10: or later)      {}", list(&self.found_by_frame));
        let with: Vec<String> = self.loads_with.iter().map(|(feature, count)| format!("{feature} {count}")).collect();
        println!("accepted loads                     {}", with.join(", "));
        println!("loans of length 0                  {}, at a null, dangling, inaccessible or ordinary pointer", self.empty_loans);
        println!("folds repeated with another text   {}", self.fold_repeated_otherwise);
        self.report_depth();
        if self.spoiled > 0 {
            println!("\nspoiled on purpose  {:>9}   ({} of them not noticed)", self.spoiled, self.spoiled_unnoticed);
        }
        println!("\ndifferences         {:>9}", self.differences);
    }

    fn report_refusals(&self) {
        let heading: String = NAMES.iter().map(|name| format!("{name:>9}")).collect();
        println!("\nrefusals {heading}      all");
        for number in (1..19).chain([21]) {
            let row = self.refusals.map(|by_number| by_number[number]);
            let cells: String = row.iter().map(|&count| if count == 0 { format!("{:>9}", "-") } else { format!("{count:>9}") }).collect();
            println!("{number:>8} {cells} {:>8}", row.iter().sum::<u64>());
        }
    }

    fn report_depth(&self) {
        println!("\ngreatest depth of stack, bytes\n{:<8} {:>9} {:>9} {:>9} {:>9}", "", "small", "measured", "large", "measured");
        for (name, [small, large]) in NAMES.iter().zip(self.depth) {
            println!("{name:<8} {:>9} {:>9} {:>9} {:>9}", small.0, small.1, large.0, large.1);
        }
    }
}

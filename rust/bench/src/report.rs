//! What a run prints: a table with a line for each measure, then the goals that were missed and the limits that were
//! passed.

use crate::timing::Measure;

/// One measure, with its ratio's limit, above which the run fails, and its goal.
pub struct Line {
    pub name: &'static str,
    /// Points a prefix in the mean, for planning.
    pub points: Option<f64>,
    pub measure: Measure,
    pub limit: Option<f64>,
    pub goal: Option<f64>,
}

/// The lines so far.
#[derive(Default)]
pub struct Report(Vec<Line>);

impl Report {
    /// Prints a table's head, with what the library is timed against.
    pub fn head(&self, about: &str, against: &str) {
        println!("\n{about:<42} points  leafanchor  {against:>10}   ratio: median (least to greatest)");
    }

    /// Prints a line, in nanoseconds a call.
    pub fn tell(&mut self, line: Line) {
        let Measure { ours, plain, ratio, least, greatest } = line.measure;
        let points = line.points.map_or(String::new(), |points| format!("{points:.1}"));
        println!(
            "{:<42} {points:>6}  {ours:>7.0} ns  {plain:>7.0} ns   {ratio:.2} ({least:.2} to {greatest:.2})",
            line.name
        );
        self.0.push(line);
    }

    /// Prints the goals that were missed and the limits that were passed, in this sequence; true where none was passed.
    pub fn verdict(&self) -> bool {
        let above = |ratio: fn(&Line) -> Option<f64>| {
            let over = move |line: &&Line| ratio(line).map_or(false, |most| line.measure.ratio > most);
            self.0.iter().filter(over).map(move |line| {
                let most = ratio(line).unwrap_or_default();
                format!("{}: {:.3}, above {most:.2}", line.name, line.measure.ratio)
            })
        };
        println!();
        let missed: Vec<String> = above(|line| line.goal).collect();
        missed.iter().for_each(|missed| println!("goal missed: {missed}"));
        if missed.is_empty() {
            println!("all goals met");
        }
        let failed: Vec<String> = above(|line| line.limit).collect();
        if !failed.is_empty() {
            println!("failed: {}", failed.join("; "));
        }
        failed.is_empty()
    }
}

//! The picture of how cost grows, as SVG: jobs to the right, microseconds up, one line for each planner and kind of
//! order, named at its end. Lines differ by dashes and marks too, not by colour alone.

use crate::growth::{Step, LINES};

/// Where the plot lies in the picture, in its units.
const LEFT: f64 = 70.0;
const RIGHT: f64 = 570.0;
const TOP: f64 = 60.0;
const BOTTOM: f64 = 400.0;
/// The number of jobs at the right end.
const MOST_JOBS: f64 = 48.0;
/// The least distance between two names.
const NAME_HEIGHT: f64 = 20.0;
/// Colour, dashes and whether marks are filled, by LINES.
const LOOKS: [(&str, &str, bool); 4] = [
    ("#0b5394", "none", true),
    ("#a64b00", "2 4", false),
    ("#0b5394", "10 5", true),
    ("#a64b00", "10 4 2 4", false),
];

/// The picture of these steps.
pub fn picture(steps: &[Step]) -> String {
    let most = steps.iter().flat_map(|(_, times)| times).fold(0.0, |most: f64, &time| most.max(time));
    let unit = [1.0, 2.0, 5.0, 10.0, 20.0, 50.0].into_iter().find(|unit| most / unit <= 7.0).unwrap_or(100.0);
    let units = (most / unit).ceil();
    let height = |time: f64| BOTTOM - (BOTTOM - TOP) * time / (unit * units);
    let mut svg = head(steps);
    for count in 0..=units as usize {
        svg += &level(unit * count as f64, height(unit * count as f64));
    }
    for &(jobs, _) in steps {
        svg += &format!("<path d=\"M{:.1} {BOTTOM:.1}v5.0\" stroke=\"#202020\"/>\n", across(jobs));
        svg += &text(across(jobs), BOTTOM + 20.0, "middle", &jobs.to_string());
    }
    svg += &text((LEFT + RIGHT) / 2.0, BOTTOM + 44.0, "middle", "jobs of the order");
    svg += &text(LEFT, TOP - 14.0, "middle", "microseconds");
    let last = steps[steps.len() - 1].1.map(height);
    for (line, name_at) in names_at(last).into_iter().enumerate() {
        let points: Vec<(f64, f64)> =
            steps.iter().map(|(jobs, times)| (across(*jobs), height(times[line]))).collect();
        svg += &curve(line, &points, name_at);
    }
    svg + "</svg>\n"
}

/// How far to the right a number of jobs stands.
fn across(jobs: usize) -> f64 {
    LEFT + (RIGHT - LEFT) * jobs as f64 / MOST_JOBS
}

/// The picture's beginning: what it says in words, and its ground.
fn head(steps: &[Step]) -> String {
    let (jobs, times) = steps[steps.len() - 1];
    let figures: Vec<String> =
        LINES.iter().zip(times).map(|(line, time)| format!("{line}: {time:.2}")).collect();
    let title = format!("How the time of planning grows with the jobs ({})", std::env::consts::ARCH);
    let mut svg = String::from(
        "<svg xmlns=\"http://www.w3.org/2000/svg\" viewBox=\"0 0 760 460\" role=\"img\" \
         aria-labelledby=\"title about\" font-family=\"sans-serif\" font-size=\"14\">\n",
    );
    svg += &format!("<title id=\"title\">{title}</title>\n");
    svg += &format!(
        "<desc id=\"about\">Microseconds an order takes, for 1 to {jobs} jobs. With {jobs} jobs, {}.</desc>\n",
        figures.join("; ")
    );
    svg += "<rect width=\"760\" height=\"460\" fill=\"#ffffff\"/>\n";
    svg + &format!("<text x=\"{LEFT:.1}\" y=\"24.0\" font-size=\"16\" fill=\"#202020\">{title}</text>\n")
}

/// A level line with its microseconds; the lowest is the axis.
fn level(time: f64, y: f64) -> String {
    let colour = if time == 0.0 { "#202020" } else { "#d0d0d0" };
    format!("<path d=\"M{LEFT:.1} {y:.1}H{RIGHT:.1}\" stroke=\"{colour}\"/>\n")
        + &text(LEFT - 8.0, y + 5.0, "end", &format!("{time:.0}"))
}

/// Dark text at a place.
fn text(x: f64, y: f64, anchor: &str, words: &str) -> String {
    format!("<text x=\"{x:.1}\" y=\"{y:.1}\" text-anchor=\"{anchor}\" fill=\"#202020\">{words}</text>\n")
}

/// How high each line's name stands: where the line ends, or below the name above it.
fn names_at(ends: [f64; 4]) -> [f64; 4] {
    let mut lines = [0, 1, 2, 3];
    lines.sort_by(|&one, &other| ends[one].total_cmp(&ends[other]));
    let (mut names, mut free) = (ends, TOP);
    for line in lines {
        names[line] = ends[line].max(free);
        free = names[line] + NAME_HEIGHT;
    }
    names
}

/// A line with its marks, and its name with a stroke that leads to it.
fn curve(line: usize, points: &[(f64, f64)], name_at: f64) -> String {
    let (colour, dashes, filled) = LOOKS[line];
    let path: Vec<String> = points.iter().map(|(x, y)| format!("{x:.1},{y:.1}")).collect();
    let mut svg = format!(
        "<polyline points=\"{}\" fill=\"none\" stroke=\"{colour}\" stroke-width=\"2.5\" \
         stroke-dasharray=\"{dashes}\"/>\n",
        path.join(" ")
    );
    let fill = if filled { colour } else { "#ffffff" };
    for (x, y) in points {
        svg +=
            &format!("<circle cx=\"{x:.1}\" cy=\"{y:.1}\" r=\"3.5\" fill=\"{fill}\" stroke=\"{colour}\"/>\n");
    }
    let end = points[points.len() - 1].1;
    svg += &format!(
        "<path d=\"M{:.1} {end:.1}L{:.1} {name_at:.1}\" stroke=\"{colour}\"/>\n",
        RIGHT + 5.0,
        RIGHT + 18.0
    );
    svg + &format!(
        "<text x=\"{:.1}\" y=\"{:.1}\" fill=\"{colour}\">{}</text>\n",
        RIGHT + 22.0,
        name_at + 5.0,
        LINES[line]
    )
}

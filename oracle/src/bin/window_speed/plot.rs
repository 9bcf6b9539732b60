//! The growth as a picture: a panel for the orders and one for the calls, marks and nanoseconds by their logarithms. Ours are unbroken lines and
//! the Rust's dashed ones, each with its name at its end.

use std::fmt::Write;

/// A line: its name, its colour, whether it is dashed, and its nanoseconds at each length.
pub struct Line {
    pub name: String,
    pub colour: &'static str,
    pub dashed: bool,
    pub times: Vec<f64>,
}

const WIDTH: f64 = 860.0;
const PANEL: f64 = 440.0;
const LEFT: f64 = 84.0;
const RIGHT: f64 = 210.0;
const TOP: f64 = 44.0;
const BOTTOM: f64 = 46.0;
/// Names stand at least so far apart.
const APART: f64 = 15.0;

/// A number of marks or nanoseconds with its thousands set apart.
fn grouped(number: u64) -> String {
    match number {
        0..1_000 => number.to_string(),
        _ => format!("{},{:03}", grouped(number / 1_000), number % 1_000),
    }
}

/// From 1, 2 or 5 times a power of ten to another, around all the times.
fn ticks(lines: &[Line]) -> Vec<f64> {
    let times = || lines.iter().flat_map(|line| line.times.iter().copied());
    let (least, most) = (times().fold(f64::MAX, f64::min), times().fold(0.0, f64::max));
    let all: Vec<f64> = (0..9).flat_map(|power| [1.0, 2.0, 5.0].map(|step| step * 10f64.powi(power))).collect();
    let first = all.iter().rposition(|&tick| tick <= least).unwrap_or(0);
    let last = all.iter().position(|&tick| tick >= most).unwrap_or(all.len() - 1);
    all[first..=last].to_vec()
}

/// Where each name stands: beside the end of its line, but apart from the others, and none below the panel.
fn name_places(ends: &[f64], lowest: f64) -> Vec<f64> {
    let mut by_height: Vec<usize> = (0..ends.len()).collect();
    by_height.sort_by(|&one, &other| ends[one].total_cmp(&ends[other]));
    let mut places = ends.to_vec();
    for two in by_height.windows(2) {
        places[two[1]] = places[two[1]].max(places[two[0]] + APART);
    }
    let mut below = lowest + APART;
    for &name in by_height.iter().rev() {
        places[name] = places[name].min(below - APART);
        below = places[name];
    }
    places
}

struct Panel<'a> {
    lengths: &'a [usize],
    ticks: Vec<f64>,
    top: f64,
}

impl Panel<'_> {
    fn x(&self, length: f64) -> f64 {
        let (first, last) = (self.lengths[0] as f64, self.lengths[self.lengths.len() - 1] as f64);
        LEFT + (WIDTH - LEFT - RIGHT) * (length / first).ln() / (last / first).ln()
    }

    fn y(&self, time: f64) -> f64 {
        let (least, most) = (self.ticks[0], self.ticks[self.ticks.len() - 1]);
        self.lowest() - (PANEL - TOP - BOTTOM) * (time / least).ln() / (most / least).ln()
    }

    fn lowest(&self) -> f64 {
        self.top + PANEL - BOTTOM
    }

    fn axes(&self, out: &mut String, title: &str) {
        let (end, high, low) = (WIDTH - RIGHT, self.top + TOP, self.lowest());
        let put = |out: &mut String, text: String| out.push_str(&(text + "\n"));
        put(out, format!(r#"<text x="{LEFT}" y="{:.1}" font-weight="bold">{title}</text>"#, high - 18.0));
        for &tick in &self.ticks {
            let y = self.y(tick);
            put(out, format!(r##"<path d="M{LEFT} {y:.1}H{end}" stroke="#dddddd"/>"##));
            let label = grouped(tick as u64);
            put(out, format!(r#"<text x="{:.1}" y="{:.1}" text-anchor="end">{label}</text>"#, LEFT - 8.0, y + 4.0));
        }
        for &length in self.lengths {
            let x = self.x(length as f64);
            put(out, format!(r##"<path d="M{x:.1} {high}V{low}" stroke="#dddddd"/>"##));
            let label = grouped(length as u64);
            put(out, format!(r#"<text x="{x:.1}" y="{:.1}" text-anchor="middle">{label}</text>"#, low + 18.0));
        }
        put(
            out,
            format!(r#"<text x="{:.1}" y="{:.1}" text-anchor="middle">marks</text>"#, (LEFT + end) / 2.0, low + 36.0),
        );
    }

    fn line(&self, out: &mut String, line: &Line, place: f64) {
        let points: Vec<(f64, f64)> = self
            .lengths
            .iter()
            .zip(&line.times)
            .map(|(&length, &time)| (self.x(length as f64), self.y(time)))
            .collect();
        let path: Vec<String> = points.iter().map(|(x, y)| format!("{x:.1},{y:.1}")).collect();
        let (colour, dashes) = (line.colour, if line.dashed { r#" stroke-dasharray="6 4""# } else { "" });
        let (x, y) = points[points.len() - 1];
        writeln!(
            out,
            r#"<polyline points="{}" fill="none" stroke="{colour}" stroke-width="2"{dashes}/>"#,
            path.join(" ")
        )
        .unwrap();
        writeln!(out, r#"<path d="M{x:.1} {y:.1}L{:.1} {place:.1}" stroke="{colour}"/>"#, x + 18.0).unwrap();
        writeln!(out, r#"<text x="{:.1}" y="{:.1}" fill="{colour}">{}</text>"#, x + 22.0, place + 4.0, line.name)
            .unwrap();
    }
}

/// The picture of some panels, each with a title and its lines, over the same lengths.
pub fn picture(lengths: &[usize], panels: &[(String, Vec<Line>)]) -> String {
    let height = PANEL * panels.len() as f64;
    let mut out = format!(
        r##"<svg xmlns="http://www.w3.org/2000/svg" viewBox="0 0 {WIDTH} {height}" width="{WIDTH}" height="{height}" font-family="sans-serif" font-size="13" fill="#222222">
<rect width="{WIDTH}" height="{height}" fill="#ffffff"/>
"##
    );
    for (index, (title, lines)) in panels.iter().enumerate() {
        let panel = Panel { lengths, ticks: ticks(lines), top: PANEL * index as f64 };
        panel.axes(&mut out, title);
        let ends: Vec<f64> = lines.iter().map(|line| panel.y(line.times[line.times.len() - 1])).collect();
        for (line, place) in lines.iter().zip(name_places(&ends, panel.lowest())) {
            panel.line(&mut out, line, place);
        }
    }
    out + "</svg>\n"
}

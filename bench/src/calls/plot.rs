//! The plot of reads and writes over depth, as SVG.

use super::results::Results;
use super::tables::{exact, LIMIT};
use super::{Call, DEEPEST, MERKLE};
use crate::subject::{OPENSSL, PROVED, REFERENCE, WITH, WITHOUT};
use std::fmt::Write;
use std::path::Path;

/// The size of the picture, and of a panel in it.
const WIDTH: f64 = 990.0;
const HEIGHT: f64 = 470.0;
const PANEL_WIDTH: f64 = 290.0;
const PANEL_HEIGHT: f64 = 340.0;
const TOP: f64 = 70.0;

/// Where the panels and the legend begin.
const READ_LEFT: f64 = 70.0;
const WRITE_LEFT: f64 = 430.0;
const LEGEND_LEFT: f64 = 745.0;

/// Colours of paper, text and lines, and those of a dark viewer.
const STYLE: &str = "\
.paper{fill:#ffffff}.text{fill:#1f2328}.grid{stroke:#d8dee4}.axis{stroke:#59636e}
.line{fill:none;stroke-width:2;stroke-linejoin:round}.dot{stroke:none}
@media (prefers-color-scheme:dark){
.paper{fill:#0d1117}.text{fill:#e6edf3}.grid{stroke:#30363d}.axis{stroke:#9198a1}
}
";

/// How a row is drawn: colours that stand out on light and on dark paper, and dashes.
struct Look {
    name: &'static str,
    label: &'static str,
    colour: &'static str,
    width: f64,
    dashes: &'static str,
}

/// Every row that can be in the plot.
const LOOKS: [Look; 7] = [
    look(REFERENCE, "reference/", "#8b8b8b", 2.0, "none"),
    look(OPENSSL, "tree over OpenSSL, AES-NI", "#9a63d8", 2.0, "none"),
    look(
        WITHOUT,
        "tree over Nettle, no AES-NI",
        "#2f86d0",
        2.0,
        "none",
    ),
    look(PROVED, "proved", "#e0522a", 3.5, "none"),
    look(MERKLE, "SHA-256 Merkle tree", "#b98a00", 2.0, "2 3"),
    look(WITH, "tree over Nettle, AES-NI", "#2f86d0", 2.0, "7 4"),
    look(LIMIT, "limit (its AES blocks alone)", "#1a9a76", 2.5, "3 3"),
];

const fn look(
    name: &'static str,
    label: &'static str,
    colour: &'static str,
    width: f64,
    dashes: &'static str,
) -> Look {
    Look {
        name,
        label,
        colour,
        width,
        dashes,
    }
}

/// One call's part of the picture, with its logarithmic scale of nanoseconds.
struct Panel {
    call: Call,
    left: f64,
    least: f64,
    most: f64,
}

/// The numbers 1, 2 and 5 times a power of ten, of each size that a call can have.
fn round_numbers() -> impl Iterator<Item = f64> {
    (0..9).flat_map(|power| [1.0, 2.0, 5.0].map(|digit| digit * 10_f64.powi(power)))
}

/// The nanoseconds of a row at each depth.
fn times(results: &Results, name: &str, call: Call) -> Option<Vec<f64>> {
    let at = |depth| match name {
        LIMIT => results.limit(call, depth),
        _ => results.time(name, call, depth),
    };
    (1..=DEEPEST).map(at).collect()
}

impl Panel {
    /// Chooses a scale for all rows that were measured.
    fn new(results: &Results, call: Call, left: f64) -> Self {
        let rows = LOOKS
            .iter()
            .filter_map(|look| times(results, look.name, call));
        let all: Vec<f64> = rows.flatten().collect();
        let least = all.iter().copied().fold(f64::MAX, f64::min);
        let most = all.iter().copied().fold(0.0, f64::max);
        let below = round_numbers().filter(|&number| number <= least).last();
        let above = round_numbers().find(|&number| number >= most);
        Panel {
            call,
            left,
            least: below.unwrap_or(1.0),
            most: above.unwrap_or(most),
        }
    }

    /// Where a depth is.
    fn x(&self, depth: u32) -> f64 {
        let share = f64::from(depth - 1) / f64::from(DEEPEST - 1);
        self.left + 10.0 + share * (PANEL_WIDTH - 20.0)
    }

    /// Where a time is.
    fn y(&self, time: f64) -> f64 {
        let share = (time / self.least).ln() / (self.most / self.least).ln();
        TOP + PANEL_HEIGHT * (1.0 - share)
    }

    /// The grid with its numbers, the axes and what they mean.
    fn draw_frame(&self, out: &mut String) -> std::fmt::Result {
        let (left, right) = (self.left, self.left + PANEL_WIDTH);
        let bottom = TOP + PANEL_HEIGHT;
        let shown = |number: &f64| (self.least..=self.most).contains(number);
        for number in round_numbers().filter(shown) {
            let y = self.y(number);
            writeln!(
                out,
                r#"<path class="grid" d="M{left:.1} {y:.1}H{right:.1}"/>"#
            )?;
            text(out, left - 7.0, y + 4.5, "end", &exact(number as u64))?;
        }
        for depth in (1..=DEEPEST).filter(|depth| depth % 2 == 0 || *depth == 1) {
            let x = self.x(depth);
            writeln!(
                out,
                r#"<path class="grid" d="M{x:.1} {TOP:.1}V{bottom:.1}"/>"#
            )?;
            text(out, x, bottom + 19.0, "middle", &depth.to_string())?;
        }
        writeln!(
            out,
            r#"<path class="axis" fill="none" d="M{left:.1} {TOP:.1}V{bottom:.1}H{right:.1}"/>"#
        )?;
        let middle = left + PANEL_WIDTH / 2.0;
        text(
            out,
            middle,
            bottom + 42.0,
            "middle",
            "depth n (2ⁿ blocks of 64 bytes)",
        )?;
        text(out, left - 7.0, TOP - 14.0, "end", "time, ns")?;
        let call = format!(r#"<tspan font-weight="bold">{}</tspan>"#, self.call);
        text(out, middle, TOP - 14.0, "middle", &call)
    }

    /// One row.
    fn draw_row(&self, out: &mut String, look: &Look, times: &[f64]) -> std::fmt::Result {
        let points = || {
            (1..)
                .zip(times)
                .map(|(depth, &time)| (self.x(depth), self.y(time)))
        };
        let path: Vec<String> = points().map(|(x, y)| format!("{x:.1},{y:.1}")).collect();
        let stroke = look.stroke();
        writeln!(
            out,
            r#"<polyline class="line" {stroke} points="{}"/>"#,
            path.join(" ")
        )?;
        if look.name == PROVED {
            for (x, y) in points() {
                let colour = look.colour;
                writeln!(
                    out,
                    r#"<circle class="dot" fill="{colour}" cx="{x:.1}" cy="{y:.1}" r="4"/>"#
                )?;
            }
        }
        Ok(())
    }
}

impl Look {
    /// Its line.
    fn stroke(&self) -> String {
        let Look {
            colour,
            width,
            dashes,
            ..
        } = self;
        format!(r#"stroke="{colour}" style="stroke-width:{width};stroke-dasharray:{dashes}""#)
    }

    /// Its line in the legend, at that height.
    fn draw_legend(&self, out: &mut String, y: f64) -> std::fmt::Result {
        let (left, right) = (LEGEND_LEFT, LEGEND_LEFT + 28.0);
        let stroke = self.stroke();
        writeln!(
            out,
            r#"<path class="line" {stroke} d="M{left} {y:.1}H{right}"/>"#
        )?;
        if self.name == PROVED {
            let (x, colour) = (LEGEND_LEFT + 14.0, self.colour);
            writeln!(
                out,
                r#"<circle class="dot" fill="{colour}" cx="{x}" cy="{y:.1}" r="4"/>"#
            )?;
        }
        text(out, right + 7.0, y + 4.5, "start", self.label)
    }
}

/// Puts text at a place.
fn text(out: &mut String, x: f64, y: f64, anchor: &str, text: &str) -> std::fmt::Result {
    writeln!(
        out,
        r#"<text class="text" x="{x:.1}" y="{y:.1}" text-anchor="{anchor}">{text}</text>"#
    )
}

/// The whole picture. The legend has the rows in the order of their times in a deep write.
fn draw(results: &Results) -> Result<String, std::fmt::Error> {
    let mut out = String::new();
    let title = "Time of one read and one write over the depth of the card";
    writeln!(
        out,
        r#"<svg xmlns="http://www.w3.org/2000/svg" viewBox="0 0 {WIDTH} {HEIGHT}" font-family="sans-serif" font-size="13" role="img">"#
    )?;
    writeln!(out, "<title>{title}</title>\n<style>\n{STYLE}</style>")?;
    writeln!(
        out,
        r#"<rect class="paper" width="{WIDTH}" height="{HEIGHT}"/>"#
    )?;
    text(
        &mut out,
        READ_LEFT,
        26.0,
        "start",
        &format!("{title} (lower is better, logarithmic)"),
    )?;
    for (call, left) in [(Call::Read, READ_LEFT), (Call::Write, WRITE_LEFT)] {
        let panel = Panel::new(results, call, left);
        panel.draw_frame(&mut out)?;
        for look in &LOOKS {
            if let Some(times) = times(results, look.name, call) {
                panel.draw_row(&mut out, look, &times)?;
            }
        }
    }
    let last = |look: &Look| Some(*times(results, look.name, Call::Write)?.last()?);
    let mut legend: Vec<_> = LOOKS
        .iter()
        .filter_map(|look| Some((last(look)?, look)))
        .collect();
    legend.sort_by(|one, other| other.0.total_cmp(&one.0));
    for (place, (_, look)) in legend.into_iter().enumerate() {
        look.draw_legend(&mut out, TOP + 12.0 + 26.0 * place as f64)?;
    }
    writeln!(out, "</svg>")?;
    Ok(out)
}

/// Draws into a file.
pub fn write(results: &Results, path: &Path) -> Result<(), String> {
    let picture = draw(results).map_err(|error| error.to_string())?;
    std::fs::write(path, picture).map_err(|error| format!("{}: {error}", path.display()))?;
    println!("The plot is in {}.", path.display());
    Ok(())
}

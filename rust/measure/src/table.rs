//! The benchmark's results: as comma-separated values, as tables, and as a
//! plot.

use std::fmt::Write;

use crate::contenders::{Contender, Operation, VARIANTS};

/// The first line of the comma-separated values.
pub const COLUMNS: &str =
    "variant,operation,header_bytes,message_bytes,contender,median_ns,fastest_ns";

/// One contender's time for one packet.
#[derive(Clone, Copy, Debug, PartialEq)]
pub struct Row {
    /// The place of the variant in `VARIANTS`.
    pub variant: usize,
    pub operation: Operation,
    pub header: usize,
    pub length: usize,
    pub contender: Contender,
    /// Median and fastest of the rounds, nanoseconds a packet.
    pub median: f64,
    pub fastest: f64,
}

impl Row {
    /// The row as comma-separated values.
    pub fn csv(&self) -> String {
        format!(
            "{},{},{},{},{},{:.1},{:.1}",
            self.variant + 1,
            self.operation.name(),
            self.header,
            self.length,
            self.contender.name(),
            self.median,
            self.fastest
        )
    }

    /// The row of a line of comma-separated values.
    pub fn parse(line: &str) -> Option<Self> {
        let fields: Vec<&str> = line.split(',').collect();
        let [
            variant,
            operation,
            header,
            length,
            contender,
            median,
            fastest,
        ] = fields[..]
        else {
            return None;
        };
        let variant: usize = variant.parse().ok()?;
        Some(Self {
            variant: (1..=VARIANTS.len())
                .contains(&variant)
                .then(|| variant - 1)?,
            operation: Operation::ALL.into_iter().find(|o| o.name() == operation)?,
            header: header.parse().ok()?,
            length: length.parse().ok()?,
            contender: Contender::ALL.into_iter().find(|c| c.name() == contender)?,
            median: median.parse().ok()?,
            fastest: fastest.parse().ok()?,
        })
    }

    /// Whether both rows are of the same packet.
    fn same_packet(&self, other: &Self) -> bool {
        let packet = |r: &Self| (r.variant, r.operation, r.header, r.length);
        packet(self) == packet(other)
    }
}

/// A table of nanoseconds a packet and a byte, and of ratios, by `number`.
pub fn table(rows: &[Row], number: fn(&Row) -> f64) -> String {
    let names = Contender::ALL.map(Contender::name).join(" | ");
    let mut text = format!(
        "| variant | operation | header | message | {names} | Rust a byte | C a byte | Rattle a byte | Rattle / Rust | Rattle / C | Rattle library / Rust | Rattle list / Rust |\n"
    );
    writeln!(text, "|---:|---|{}", "---:|".repeat(14)).unwrap();
    for row in rows.iter().filter(|row| row.contender == Contender::Rust) {
        let of = |contender| {
            rows.iter()
                .find(|r| r.same_packet(row) && r.contender == contender)
                .map_or(f64::NAN, number)
        };
        let times = Contender::ALL.map(of);
        let [rust, c, rattle, library, list] = times;
        let length = row.length as f64;
        let mut cells = vec![
            (row.variant + 1).to_string(),
            row.operation.name().to_string(),
            row.header.to_string(),
            row.length.to_string(),
        ];
        cells.extend(times.map(|time| format!("{time:.0}")));
        let small = [
            rust / length,
            c / length,
            rattle / length,
            rattle / rust,
            rattle / c,
            library / rust,
            list / rust,
        ];
        cells.extend(small.map(|n| format!("{n:.2}")));
        writeln!(text, "| {} |", cells.join(" | ")).unwrap();
    }
    text
}

/// Sizes of the plot: a panel with its margins, in the plot's units.
const PANEL: (f64, f64) = (230.0, 200.0);
const LEFT: f64 = 56.0;
const TOP: f64 = 64.0;
const GAP: (f64, f64) = (24.0, 56.0);

/// One panel's place and the ranges of its axes.
struct Panel {
    x: f64,
    y: f64,
    lengths: (f64, f64),
    times: (f64, f64),
}

impl Panel {
    /// Where a length lies; lengths are on a logarithmic scale.
    fn across(&self, length: f64) -> f64 {
        let (low, high) = self.lengths;
        self.x + PANEL.0 * (length / low).log2() / (high / low).log2()
    }

    /// Where a time lies; times are on a logarithmic scale.
    fn down(&self, time: f64) -> f64 {
        let (low, high) = self.times;
        self.y + PANEL.1 - PANEL.1 * (time / low).log2() / (high / low).log2()
    }
}

/// A length in words.
fn size(length: usize) -> String {
    match length {
        n if n >= 1 << 20 && n % (1 << 20) == 0 => format!("{} MiB", n >> 20),
        n if n >= 1 << 10 && n % (1 << 10) == 0 => format!("{} KiB", n >> 10),
        n => format!("{n} B"),
    }
}

/// The contenders that the plot shows, where there are times of them.
const PLOTTED: [Contender; 4] = [
    Contender::Rust,
    Contender::C,
    Contender::Rattle,
    Contender::RattleList,
];

/// How a contender's line looks.
fn line_style(contender: Contender) -> &'static str {
    match contender {
        Contender::Rust => "stroke=\"#c05a00\"",
        Contender::C => "stroke=\"#2f7d32\"",
        Contender::Rattle | Contender::RattleLibrary | Contender::RattleWhole => {
            "stroke=\"#1f5fbf\""
        }
        Contender::RattleList => "stroke=\"#1f5fbf\" stroke-dasharray=\"4 3\"",
    }
}

/// The frame of a panel, its marks and its name.
fn frame(svg: &mut String, panel: &Panel, name: &str, lengths: &[usize]) {
    let (x, y, (w, h)) = (panel.x, panel.y, PANEL);
    writeln!(
        svg,
        "<rect x=\"{x}\" y=\"{y}\" width=\"{w}\" height=\"{h}\" fill=\"none\" stroke=\"#888\"/>"
    )
    .unwrap();
    writeln!(
        svg,
        "<text x=\"{}\" y=\"{}\" text-anchor=\"middle\">{name}</text>",
        x + w / 2.0,
        y - 8.0
    )
    .unwrap();
    for length in lengths {
        let at = panel.across(*length as f64);
        writeln!(
            svg,
            "<line x1=\"{at:.1}\" y1=\"{y}\" x2=\"{at:.1}\" y2=\"{}\" stroke=\"#ddd\"/>",
            y + h
        )
        .unwrap();
        writeln!(
            svg,
            "<text x=\"{at:.1}\" y=\"{}\" text-anchor=\"middle\" font-size=\"9\">{}</text>",
            y + h + 14.0,
            size(*length)
        )
        .unwrap();
    }
    let mut mark = panel.times.0;
    while mark <= panel.times.1 {
        let at = panel.down(mark);
        writeln!(
            svg,
            "<line x1=\"{x}\" y1=\"{at:.1}\" x2=\"{}\" y2=\"{at:.1}\" stroke=\"#ddd\"/>",
            x + w
        )
        .unwrap();
        writeln!(
            svg,
            "<text x=\"{}\" y=\"{:.1}\" text-anchor=\"end\" font-size=\"9\">{mark}</text>",
            x - 5.0,
            at + 3.0
        )
        .unwrap();
        mark *= 2.0;
    }
}

/// The contenders' lines in a panel.
fn lines(svg: &mut String, panel: &Panel, plotted: &[Contender], rows: &[&Row]) {
    for &contender in plotted {
        let points: Vec<String> = rows
            .iter()
            .filter(|row| row.contender == contender)
            .map(|row| {
                let time = row.median / row.length as f64;
                format!(
                    "{:.1},{:.1}",
                    panel.across(row.length as f64),
                    panel.down(time)
                )
            })
            .collect();
        let style = line_style(contender);
        writeln!(
            svg,
            "<polyline points=\"{}\" fill=\"none\" {style} stroke-width=\"1.8\"/>",
            points.join(" ")
        )
        .unwrap();
    }
}

/// The plot's first lines: its size, its title and which line is whose.
fn head(svg: &mut String, plotted: &[Contender]) {
    let width = LEFT + 4.0 * (PANEL.0 + GAP.0);
    let height = TOP + 2.0 * (PANEL.1 + GAP.1);
    writeln!(svg, "<svg xmlns=\"http://www.w3.org/2000/svg\" viewBox=\"0 0 {width} {height}\" font-family=\"sans-serif\" font-size=\"12\">").unwrap();
    writeln!(
        svg,
        "<rect width=\"{width}\" height=\"{height}\" fill=\"white\"/>"
    )
    .unwrap();
    writeln!(svg, "<text x=\"{LEFT}\" y=\"20\">Nanoseconds a byte over the message's length, no header; median. Both axes are logarithmic.</text>").unwrap();
    for (i, &contender) in plotted.iter().enumerate() {
        let x = LEFT + 150.0 * i as f64;
        let style = line_style(contender);
        writeln!(
            svg,
            "<line x1=\"{x}\" y1=\"36\" x2=\"{}\" y2=\"36\" {style} stroke-width=\"1.8\"/>",
            x + 28.0
        )
        .unwrap();
        writeln!(
            svg,
            "<text x=\"{}\" y=\"40\">{}</text>",
            x + 34.0,
            contender.name()
        )
        .unwrap();
    }
}

/// A plot of time a byte over the message's length, a panel for each variant
/// and operation, for messages without a header.
pub fn plot(rows: &[Row]) -> Result<String, String> {
    let rows: Vec<&Row> = rows.iter().filter(|row| row.header == 0).collect();
    let mut lengths: Vec<usize> = rows.iter().map(|row| row.length).collect();
    lengths.sort_unstable();
    lengths.dedup();
    let times = rows.iter().map(|row| row.median / row.length as f64);
    let (low, high) = times.fold((f64::INFINITY, 0.0_f64), |(l, h), t| (l.min(t), h.max(t)));
    if lengths.len() < 2 || !low.is_normal() {
        return Err("the plot needs times of messages of two lengths".to_string());
    }
    let mut plotted = PLOTTED.to_vec();
    plotted.retain(|contender| rows.iter().any(|row| row.contender == *contender));
    let mut svg = String::new();
    head(&mut svg, &plotted);
    for (row, operation) in Operation::ALL.into_iter().enumerate() {
        for (column, variant) in VARIANTS.iter().enumerate() {
            let panel = Panel {
                x: LEFT + column as f64 * (PANEL.0 + GAP.0),
                y: TOP + row as f64 * (PANEL.1 + GAP.1),
                lengths: (lengths[0] as f64, lengths[lengths.len() - 1] as f64),
                times: (low.log2().floor().exp2(), high.log2().ceil().exp2()),
            };
            let here = |r: &&&Row| r.variant == column && r.operation == operation;
            let here: Vec<&Row> = rows.iter().filter(here).copied().collect();
            frame(
                &mut svg,
                &panel,
                &format!("{variant}, {}", operation.name()),
                &lengths,
            );
            lines(&mut svg, &panel, &plotted, &here);
        }
    }
    svg.push_str("</svg>\n");
    Ok(svg)
}

#[cfg(test)]
mod tests {
    use super::{Row, plot, table};
    use crate::contenders::{Contender, Operation};

    fn row(length: usize, contender: Contender) -> Row {
        Row {
            variant: 2,
            operation: Operation::Open,
            header: 0,
            length,
            contender,
            median: 10.5 * length as f64,
            fastest: 10.0 * length as f64,
        }
    }

    #[test]
    fn rows_are_read_as_they_are_written() {
        for contender in Contender::ALL {
            let row = row(64, contender);
            assert_eq!(Row::parse(&row.csv()), Some(row));
        }
        assert_eq!(Row::parse("5,open,0,64,Rust,1.0,1.0"), None);
        assert_eq!(Row::parse("1,open,0,64,Rust,1.0"), None);
    }

    #[test]
    fn a_table_has_every_ratio() {
        let mut rows = Contender::ALL.map(|contender| row(64, contender));
        rows[1].median /= 2.0;
        let text = table(&rows, |row| row.median);
        let lines: Vec<Vec<&str>> = text.lines().map(|l| l.split('|').collect()).collect();
        let [head, rule, cells] = &lines[..] else {
            panic!("a head, a rule and a packet: {text}");
        };
        assert_eq!((head.len(), rule.len()), (cells.len(), cells.len()));
        let cell = |name: &str| {
            let place = head.iter().position(|cell| cell.trim() == name);
            cells[place.expect("a column")].trim()
        };
        assert_eq!((cell("Rattle"), cell("C")), ("672", "336"));
        assert_eq!(
            (cell("Rattle / Rust"), cell("Rattle / C")),
            ("1.00", "2.00")
        );
        assert_eq!(cell("Rattle list / Rust"), "1.00");
    }

    #[test]
    fn a_plot_needs_two_lengths() {
        let one = [row(64, Contender::Rust)];
        assert!(plot(&one).is_err());
        let two = [row(64, Contender::Rust), row(128, Contender::Rust)];
        let svg = plot(&two).unwrap();
        assert!(svg.starts_with("<svg ") && svg.ends_with("</svg>\n"));
    }
}

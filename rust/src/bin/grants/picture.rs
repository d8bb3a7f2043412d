//! Two lines of steps as an SVG picture, drawn here so that nothing else is needed.


use grants::dates;
use std::fmt;

pub struct Picture {
    /// Two lines by their names: where a step begins, and its height. They begin in the same places.
    pub lines: [(&'static str, Vec<(f64, f64)>); 2],
    /// Where the last step ends.
    pub until: f64,
    /// The places are seconds since 1970, not versions.
    pub by_date: bool,
}

const WIDTH: f64 = 720.0;
const HEIGHT: f64 = 340.0;
const LEFT: f64 = 64.0;
const RIGHT: f64 = 24.0;
const TOP: f64 = 40.0;
const BOTTOM: f64 = 44.0;
const COLOURS: [&str; 2] = ["#1b6ca8", "#b5541b"];

/// Round numbers from 0 on, at most six, the last not below the highest.
fn marks(highest: f64) -> Vec<f64> {
    let mut step = 1.0;
    let mut factors = [2.0, 2.5, 2.0].iter().cycle();
    while highest / step > 5.0 {
        step *= factors.next().unwrap_or(&2.0);
    }
    (0..=6)
        .map(|i| f64::from(i) * step)
        .take_while(|mark| mark - step < highest || *mark == 0.0)
        .collect()
}

impl Picture {
    fn words(&self, place: f64) -> String {
        match self.by_date {
            true => dates::text(place as i64)[..10].to_string(),
            false => format!("{place}"),
        }
    }
}

impl fmt::Display for Picture {
    fn fmt(&self, f: &mut fmt::Formatter<'_>) -> fmt::Result {
        let points = || self.lines.iter().flat_map(|(_, line)| line);
        let from = points().next().map_or(0.0, |(place, _)| *place);
        // One place alone has some width too.
        let wide = (self.until - from).max(1.0);
        let highest = points().fold(1.0, |high: f64, (_, value)| high.max(*value));
        let marks = marks(highest);
        let top = marks.last().copied().unwrap_or(1.0);
        let x = |place: f64| LEFT + (place - from) / wide * (WIDTH - LEFT - RIGHT);
        let y = |value: f64| HEIGHT - BOTTOM - value / top * (HEIGHT - TOP - BOTTOM);
        let by = if self.by_date { "date" } else { "version" };
        writeln!(
            f,
            r#"<svg xmlns="http://www.w3.org/2000/svg" viewBox="0 0 {WIDTH} {HEIGHT}" role="img" font-family="sans-serif" font-size="12">"#
        )?;
        writeln!(f, "<title>Grants and records by {by}</title>")?;
        writeln!(f, r##"<rect width="100%" height="100%" fill="#fff"/>"##)?;
        for mark in &marks {
            let at = y(*mark);
            writeln!(
                f,
                r##"<path d="M{LEFT} {at:.1}H{:.1}" stroke="#ddd"/><text x="{:.1}" y="{:.1}" text-anchor="end">{mark}</text>"##,
                WIDTH - RIGHT,
                LEFT - 8.0,
                at + 4.0
            )?;
        }
        for (i, part) in [0.0, 0.5, 1.0].iter().enumerate() {
            let place = (from + part * (self.until - from)).round();
            let anchor = ["start", "middle", "end"][i];
            writeln!(
                f,
                r#"<text x="{:.1}" y="{:.1}" text-anchor="{anchor}">{}</text>"#,
                x(place),
                HEIGHT - BOTTOM + 20.0,
                self.words(place)
            )?;
        }
        writeln!(
            f,
            r#"<text x="{LEFT}" y="{:.1}">by {by}</text>"#,
            HEIGHT - 8.0
        )?;
        for (i, (name, line)) in self.lines.iter().enumerate() {
            let mut path = String::new();
            for (place, value) in line {
                let word = if path.is_empty() {
                    format!("M{:.1} {:.1}", x(*place), y(*value))
                } else {
                    format!("H{:.1}V{:.1}", x(*place), y(*value))
                };
                path += &word;
            }
            let end = x(self.until.max(from + wide));
            let colour = COLOURS[i];
            writeln!(
                f,
                r#"<path d="{path}H{end:.1}" fill="none" stroke="{colour}" stroke-width="2"/>"#
            )?;
            let left = LEFT + 120.0 * i as f64;
            writeln!(
                f,
                r#"<path d="M{left:.1} 20h24" stroke="{colour}" stroke-width="2"/><text x="{:.1}" y="24">{name}</text>"#,
                left + 30.0
            )?;
        }
        f.write_str("</svg>\n")
    }
}

#[cfg(test)]
mod tests {
    use super::*;

    #[test]
    fn marks_are_round_and_reach_the_highest() {
        assert_eq!(marks(1.0), [0.0, 1.0]);
        assert_eq!(marks(7.0), [0.0, 2.0, 4.0, 6.0, 8.0]);
        assert_eq!(marks(5.0), [0.0, 1.0, 2.0, 3.0, 4.0, 5.0]);
        let many = marks(16_384.0);
        assert!(many.len() <= 7 && many.last() >= Some(&16_384.0));
    }

    #[test]
    fn a_step_goes_across_and_then_up() {
        let picture = Picture {
            lines: [
                ("grants", vec![(1.0, 4.0), (3.0, 2.0)]),
                ("records", vec![(1.0, 8.0), (3.0, 6.0)]),
            ],
            until: 5.0,
            by_date: false,
        };
        let text = picture.to_string();
        assert!(
            text.contains(r#"d="M64.0 168.0H380.0V232.0H696.0""#),
            "{text}"
        );
        assert!(text.contains("by version"));
    }
}

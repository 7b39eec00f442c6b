//! A forecast as a picture: for each list a bar for the words captured and one for the fewest.

use crate::figures::{Figures, Row, Totals};
use crate::labels::{common_folder, label};
use crate::rate::Rate;
use crate::svg::{style, Picture, Style};
use crate::table::either;
use crate::text::{grouped, percent};

/// More lists than these make no picture that can be read.
const BARS_MOST: usize = 40;

/// A longer summary is set smaller, so that it fits.
const SUMMARY_MOST: usize = 140;

const WIDTH: f64 = 860.0;
/// Where bars begin, and the longest ends; their names stand left of it and their lengths right.
const BARS: (f64, f64) = (230.0, 700.0);
const TOP: f64 = 96.0;
const PITCH: f64 = 26.0;
const BAR: f64 = 9.0;

/// Dark and light, and of hues that everybody tells apart.
const CAPTURED: &str = "#0a4f80";
const SHORTEST: &str = "#f0a030";
/// Between the bounds.
const BETWEEN: &str = "#fbe3bf";
const GRID: &str = "#dedede";

const PLAIN: Style = style(11, "start", false);
const BOLD: Style = style(11, "start", true);
const TITLE: Style = style(17, "start", true);
const NAME: Style = style(11, "end", false);
const TOTAL: Style = style(11, "end", true);
const BELOW: Style = style(9, "end", false);
const VALUE: Style = style(9, "start", false);
const TICK: Style = style(10, "middle", false);

/// The picture, as the text of an SVG file.
pub fn picture(rows: &[Row], totals: &Totals, rate: Option<Rate>) -> String {
    let (drawn, others) = chosen(rows);
    let mut picture = Picture::new();
    heading(&mut picture, totals, &drawn);
    let longest = drawn.iter().map(|(_, figures)| figures.words).max();
    let axis = Axis::new(longest.unwrap_or(0));
    let bottom = TOP + PITCH * drawn.len() as f64;
    axis.draw(&mut picture, bottom);
    for (k, (name, figures)) in drawn.iter().enumerate() {
        let y = TOP + PITCH * k as f64 + 4.0;
        picture.text((BARS.0 - 8.0, y + BAR + 3.0), NAME, name);
        bars(&mut picture, y, figures, axis.end);
    }
    let height = foot(&mut picture, bottom + 44.0, &others, totals, rate);
    picture.finish((WIDTH, height), title(), &summary(totals))
}

fn title() -> &'static str {
    "Words of command lists: captured and shortest"
}

/// The lists to draw: all in their order, or the largest, largest first; and the sum of the others, with their number.
fn chosen(rows: &[Row]) -> (Vec<(String, Figures)>, Totals) {
    let accepted = rows
        .iter()
        .filter_map(|row| row.found.as_ref().ok().map(|figures| (row, *figures)));
    let mut drawn: Vec<(&Row, Figures)> = accepted.collect();
    let mut others = Totals::default();
    if drawn.len() > BARS_MOST {
        drawn.sort_by_key(|(_, figures)| std::cmp::Reverse(figures.words)); // keeps the order of equal ones
        for (row, _) in drawn.split_off(BARS_MOST) {
            others.add(row);
        }
    }
    let names: Vec<&str> = drawn.iter().map(|(row, _)| row.name.as_str()).collect();
    let folder = common_folder(&names);
    let label =
        |(row, figures): &(&Row, Figures)| (label(&row.name[folder..], figures.remark), *figures);
    (drawn.iter().map(label).collect(), others)
}

fn heading(picture: &mut Picture, totals: &Totals, drawn: &[(String, Figures)]) {
    picture.text((20.0, 32.0), TITLE, title());
    let summary = summary(totals);
    let is_long = summary.chars().count() > SUMMARY_MOST;
    picture.text((20.0, 52.0), if is_long { VALUE } else { PLAIN }, &summary);
    let mut legend = vec![(CAPTURED, "captured"), (SHORTEST, "shortest")];
    if drawn.iter().any(|(_, figures)| figures.is_bounded()) {
        legend.push((BETWEEN, "shortest, between at least and at most"));
    }
    let mut x = BARS.0;
    for (fill, what) in legend {
        picture.rectangle((x, 65.0), (12.0, 10.0), fill);
        picture.text((x + 17.0, 74.0), PLAIN, what);
        x += 100.0;
    }
}

fn summary(totals: &Totals) -> String {
    let sum = &totals.sum;
    let plural = if totals.lists == 1 { "" } else { "s" };
    let left_out = totals
        .left_out()
        .map_or_else(String::new, |what| format!(", {what}"));
    format!(
        "{} list{plural}{left_out}: {} words captured, {} at the shortest, {} saved ({}{} %)",
        grouped(totals.lists),
        grouped(sum.words),
        between(sum.shortest.least, sum.shortest.most),
        between(sum.saved().least, sum.saved().most),
        if sum.is_bounded() { "at least " } else { "" },
        percent(sum.saved().least, sum.words),
    )
}

fn between(least: u64, most: u64) -> String {
    if least == most {
        grouped(most)
    } else {
        format!("{} to {}", grouped(least), grouped(most))
    }
}

/// The two bars of a list, the first as long as its words are of `end`.
fn bars(picture: &mut Picture, y: f64, figures: &Figures, end: u64) {
    let (words, shortest, x) = (figures.words, figures.shortest, BARS.0);
    let long = |words: u64| (BARS.1 - BARS.0) * words as f64 / end as f64;
    picture.rectangle((x, y), (long(words), BAR), CAPTURED);
    picture.text(
        (x + long(words) + 5.0, y + BAR - 1.0),
        VALUE,
        &grouped(words),
    );
    let y = y + BAR;
    picture.rectangle((x, y), (long(shortest.least), BAR), SHORTEST);
    if figures.is_bounded() {
        let (start, end) = (long(shortest.least), long(shortest.most));
        picture.rectangle((x + start, y), (end - start, BAR), BETWEEN);
    }
    let mut value = between(shortest.least, shortest.most);
    let saved = figures.saved().least;
    if saved > 0 {
        let more = if figures.is_bounded() { " or more" } else { "" };
        value += &format!(" (\u{2212}{} %{more})", percent(saved, words));
    }
    picture.text(
        (x + long(shortest.most) + 5.0, y + BAR - 1.0),
        VALUE,
        &value,
    );
}

/// Ticks at 0, a step, two steps, .. to the end.
struct Axis {
    step: u64,
    end: u64,
}

impl Axis {
    /// A step of 1, 2 or 5 and zeros, so that there are at most six.
    fn new(most: u64) -> Self {
        let most = most.max(1);
        let steps = (0..19).flat_map(|zeros| [1, 2, 5].map(|digit| digit * 10u64.pow(zeros)));
        let step = steps
            .into_iter()
            .find(|step| most.div_ceil(*step) <= 6)
            .unwrap_or(most);
        Self {
            step,
            end: step * most.div_ceil(step),
        }
    }

    fn draw(&self, picture: &mut Picture, bottom: f64) {
        for tick in 0..=self.end / self.step {
            let x = BARS.0 + (BARS.1 - BARS.0) * (tick * self.step) as f64 / self.end as f64;
            picture.line((x, TOP - 6.0), (x, bottom + 4.0), GRID);
            picture.text((x, bottom + 16.0), TICK, &grouped(tick * self.step));
        }
        picture.text((BARS.1 + 34.0, bottom + 16.0), PLAIN, "words");
    }
}

/// What isn't drawn, and the totals, in a scale of their own; gives the picture's height.
fn foot(picture: &mut Picture, y: f64, others: &Totals, all: &Totals, rate: Option<Rate>) -> f64 {
    let mut y = y;
    if others.lists > 0 {
        picture.text((20.0, y), PLAIN, &not_drawn(others));
        y += 22.0;
    }
    if all.lists > 1 {
        let (x, name) = (
            BARS.0 - 8.0,
            format!("total of {} lists", grouped(all.lists)),
        );
        picture.line((20.0, y - 8.0), (WIDTH - 20.0, y - 8.0), GRID);
        picture.text((x, y + BAR + 1.0), TOTAL, &name);
        picture.text((x, y + BAR + 13.0), BELOW, "in a scale of its own");
        // not as long as may be: what stands right of them may have many digits
        let end = all.sum.words + all.sum.words / 4;
        bars(picture, y + 3.0, &all.sum, end.max(1));
        y += 48.0;
    }
    if let Some(rate) = rate {
        let captured = rate.hours(all.sum.words);
        let shortest = either(rate, all.sum.shortest.least, all.sum.shortest.most);
        let times = format!("captured: {captured}; shortest: {shortest}");
        picture.text(
            (20.0, y),
            BOLD,
            &format!("Replayed at {rate} words a second"),
        );
        picture.text((20.0, y + 17.0), PLAIN, &times);
        y += 40.0;
    }
    y
}

fn not_drawn(others: &Totals) -> String {
    let sum = &others.sum;
    let (count, words) = (grouped(others.lists), grouped(sum.words));
    let shortest = between(sum.shortest.least, sum.shortest.most);
    format!("The {BARS_MOST} largest are drawn; the {count} others: {words} words captured, {shortest} at the shortest")
}

#[cfg(test)]
mod tests {
    use super::*;

    /// The largest sums that there can be of a hundred thousand lists, at about five units a letter.
    #[test]
    fn large_sums_fit() {
        let mut totals = Totals {
            lists: 100_000,
            refused: 1000,
            unreadable: 1000,
            ..Totals::default()
        };
        (totals.sum.words, totals.sum.shortest.most) = (6_553_600_000, 6_553_500_000);
        totals.sum.shortest.least = 6_553_400_000;
        let size = |picture: &str| {
            let mut lines = picture.lines().filter(|line| line.contains("<text"));
            let summary = lines.find(|line| line.contains(" words captured, "));
            summary
                .and_then(|line| line.split('"').nth(5))
                .map(str::to_owned)
        };
        let large = picture(&[], &totals, None);
        assert_eq!(size(&large).as_deref(), Some("9"));
        // the total's bars end where there is room for their numbers
        assert!(large.contains("width=\"376.00\""));
        (totals.refused, totals.unreadable) = (0, 0);
        assert_eq!(size(&picture(&[], &totals, None)).as_deref(), Some("11"));
    }

    #[test]
    fn ticks_are_round() {
        let ends =
            [0, 1, 6, 7, 480, 65_536].map(|most| (Axis::new(most).step, Axis::new(most).end));
        assert_eq!(
            ends,
            [(1, 1), (1, 1), (1, 6), (2, 8), (100, 500), (20_000, 80_000)]
        );
    }
}

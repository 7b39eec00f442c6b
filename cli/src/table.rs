//! A forecast as a table of text.

use pica::LIST_LENGTH_MOST;

use crate::figures::{Figures, Row, Totals};
use crate::rate::Rate;
use crate::text::{grouped, on_one_line, percent, shortened};

/// Longer names are shortened.
const NAME_MOST: usize = 48;

/// The columns' widths, which are known before the first list is read.
pub struct Table {
    name: usize,
    number: usize,
}

impl Table {
    pub fn new(names: &[String]) -> Self {
        let total = format!("total of {} lists", grouped(names.len() as u64));
        let letters = |name: &String| on_one_line(name).chars().count().min(NAME_MOST);
        let name = names.iter().map(letters).max().unwrap_or(0);
        let number = grouped((names.len() * LIST_LENGTH_MOST) as u64).len();
        Self {
            name: name.max(total.len()),
            number: number.max("shortest".len()),
        }
    }

    pub fn head(&self) -> String {
        self.line("list", ["words", "writes", "shortest", "saved"], "")
    }

    pub fn row(&self, row: &Row) -> String {
        let name = shortened(&on_one_line(&row.name), NAME_MOST);
        match &row.found {
            Ok(figures) => self.figures(&name, figures, figures.remark.map(str::to_owned)),
            Err(problem) => format!("{name:<width$}  {}", problem.text(), width = self.name),
        }
    }

    pub fn foot(&self, totals: &Totals) -> String {
        let plural = if totals.lists == 1 { "" } else { "s" };
        let name = format!("total of {} list{plural}", grouped(totals.lists));
        self.figures(&name, &totals.sum, totals.left_out())
    }

    fn figures(&self, name: &str, figures: &Figures, remark: Option<String>) -> String {
        let Figures {
            words,
            writes,
            shortest,
            ..
        } = *figures;
        let saved = figures.saved();
        let bounds = figures.is_bounded().then(|| {
            let (least, most) = (grouped(shortest.least), grouped(shortest.most));
            format!("shortest at least {least}, at most {most}")
        });
        let remarks: Vec<String> = bounds.into_iter().chain(remark).collect();
        let numbers = [words, writes, shortest.most, saved.least].map(grouped);
        let part = format!("{:>5} %", percent(saved.least, words));
        let end = if remarks.is_empty() {
            part
        } else {
            format!("{part}  {}", remarks.join("; "))
        };
        self.line(name, numbers.each_ref().map(String::as_str), &end)
    }

    fn line(&self, name: &str, numbers: [&str; 4], end: &str) -> String {
        let mut line = format!("{name:<width$}", width = self.name);
        for number in numbers {
            line.push_str(&format!("  {number:>width$}", width = self.number));
        }
        if !end.is_empty() {
            line.push_str(&format!("  {end}"));
        }
        line
    }
}

/// How long it all takes at a rate.
pub fn hours(sum: &Figures, rate: Rate) -> String {
    let (words, shortest, saved) = (sum.words, sum.shortest, sum.saved());
    let captured = rate.hours(words);
    let shortest = either(rate, shortest.least, shortest.most);
    let saved = either(rate, saved.least, saved.most);
    format!("replayed at {rate} words a second\n  captured  {captured}\n  shortest  {shortest}\n  saved     {saved}\n")
}

/// The time of a number of words between two bounds.
pub fn either(rate: Rate, least: u64, most: u64) -> String {
    match (rate.hours(least), rate.hours(most)) {
        (least, most) if least == most => most,
        (least, most) => format!("at least {least}, at most {most}"),
    }
}

//! A progress bar on standard error, where that is a terminal and the work is long.

use std::io::{self, IsTerminal, Write};
use std::time::{Duration, Instant};

/// Work that ends sooner shows no bar.
const PATIENCE: Duration = Duration::from_secs(1);
const BETWEEN: Duration = Duration::from_millis(100);
const WIDTH: usize = 30;

pub struct Progress {
    total: usize,
    next: Option<Instant>,
    is_drawn: bool,
}

impl Progress {
    pub fn new(total: usize) -> Self {
        let next = io::stderr()
            .is_terminal()
            .then(|| Instant::now() + PATIENCE);
        Self {
            total,
            next,
            is_drawn: false,
        }
    }

    /// Shows how much is done, a few times a second.
    pub fn show(&mut self, done: usize) {
        let now = Instant::now();
        if self.next.is_some_and(|next| now >= next) {
            self.next = Some(now + BETWEEN);
            self.is_drawn = true;
            let _ = write!(io::stderr(), "\r{}\x1b[K", bar(done, self.total));
        }
    }

    /// Takes the bar away, before a line is printed on the same terminal and at the end. It comes back when it is shown again.
    pub fn clear(&mut self) {
        if std::mem::take(&mut self.is_drawn) {
            self.next = Some(Instant::now());
            let _ = write!(io::stderr(), "\r\x1b[K");
        }
    }
}

impl Drop for Progress {
    fn drop(&mut self) {
        self.clear();
    }
}

fn bar(done: usize, total: usize) -> String {
    let full = WIDTH * done / total.max(1);
    format!(
        "[{}{}] {done} of {total}",
        "#".repeat(full),
        "-".repeat(WIDTH.saturating_sub(full))
    )
}

#[cfg(test)]
mod tests {
    #[test]
    fn the_bar_has_one_width() {
        assert_eq!(super::bar(0, 0), format!("[{}] 0 of 0", "-".repeat(30)));
        assert_eq!(
            super::bar(1, 2),
            format!("[{}{}] 1 of 2", "#".repeat(15), "-".repeat(15))
        );
    }
}

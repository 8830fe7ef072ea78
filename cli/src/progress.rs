//! A bar of progress on standard error, where that is a terminal.

use std::io::{self, IsTerminal, Write};

const WIDTH: usize = 40;

pub struct Progress {
    total: usize,
    done: usize,
    shown: bool,
}

impl Progress {
    pub fn new(total: usize) -> Progress {
        Progress { total: total.max(1), done: 0, shown: io::stderr().is_terminal() }
    }

    pub fn advance(&mut self, by: usize) {
        self.done = self.total.min(self.done + by);
        if self.shown {
            let _ = write!(io::stderr(), "\r{}", bar(self.done, self.total));
        }
    }

    /// Clears the line, and shows nothing more.
    pub fn end(&mut self) {
        if self.shown {
            let _ = write!(io::stderr(), "\r\x1b[K");
        }
        self.shown = false;
    }
}

impl Drop for Progress {
    fn drop(&mut self) {
        self.end();
    }
}

fn bar(done: usize, total: usize) -> String {
    let full = WIDTH * done / total;
    format!("[{}{}] {:3} %", "=".repeat(full), " ".repeat(WIDTH - full), 100 * done / total)
}

#[cfg(test)]
mod tests {
    use super::*;

    #[test]
    fn fills_from_the_left() {
        assert_eq!(bar(0, 8), format!("[{}]   0 %", " ".repeat(40)));
        assert_eq!(bar(2, 8), format!("[{}{}]  25 %", "=".repeat(10), " ".repeat(30)));
        assert_eq!(bar(8, 8), format!("[{}] 100 %", "=".repeat(40)));
    }
}

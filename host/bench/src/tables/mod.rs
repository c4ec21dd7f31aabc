//! The tables that are printed, each with a word on what it shows.

pub mod commands;
pub mod erased;
pub mod look;
pub mod parts;

/// Five ways to do the same, beside each other, and the ratio of proved to quick.
struct Five {
    proved: f64,
    second: f64,
    plain: f64,
    quick: f64,
    floor: f64,
}

impl Five {
    fn print_head() {
        print!("{:<30}{:>9}{:>9}{:>9}", "", "proved", "second", "plain");
        println!("{:>9}{:>9}{:>8}", "quick", "floor", "ratio");
    }

    fn print(&self, name: &str) {
        let Five { proved, second, plain, quick, floor } = self;
        let ratio = proved / quick;
        print!("{name:<30}{proved:>9.2}{second:>9.2}{plain:>9.2}");
        println!("{quick:>9.2}{floor:>9.2}{ratio:>8.2}");
    }
}

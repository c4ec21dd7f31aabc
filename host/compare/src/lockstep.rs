//! Two layers in lockstep: each does a command on a copy of its own, and all that
//! they reply and leave behind is compared.

use crate::command::{Command, Lent, Reply};
use crate::layer::Layer;
use crate::tally::Tally;
use std::panic::{self, AssertUnwindSafe};

/// Two layers held to each other.
pub struct Lockstep {
    tested: Layer,
    second: Layer,
    pub tally: Tally,
}

/// The first command on which the two differ, in words.
pub struct Difference(pub String);

/// What a command replies and leaves behind.
#[derive(PartialEq)]
struct Outcome {
    reply: Reply,
    left: Lent,
}

impl Lockstep {
    pub fn new(tested: Layer, second: Layer) -> Lockstep {
        Lockstep { tested, second, tally: Tally::default() }
    }

    /// Does a command with both layers. Gives what they reply and leave behind if
    /// it is the same.
    pub fn run(&mut self, command: Command, lent: &Lent) -> Result<(Reply, Lent), Difference> {
        let one = attempt(self.tested, command, lent);
        let other = attempt(self.second, command, lent);
        self.tally.count(command, lent, &other.reply);
        // Both breaking off at the same place would be no difference, and is none of
        // the answers either.
        if one == other && other.reply != Reply::Panicked {
            Ok((other.reply, other.left))
        } else {
            Err(self.difference(command, lent, &one, &other))
        }
    }

    fn difference(
        &self,
        command: Command,
        lent: &Lent,
        one: &Outcome,
        other: &Outcome,
    ) -> Difference {
        let mut lines = vec![
            format!("{command}"),
            format!("  lent: {lent}"),
            format!("  {}: {}", self.tested.name, one.reply),
            format!("  {}: {}", self.second.name, other.reply),
        ];
        let (one, other) = (&one.left, &other.left);
        let parts = [
            ("data image", one.data.difference(&other.data)),
            ("spare image", one.spare.difference(&other.spare)),
            ("table", one.table.difference(&other.table)),
            ("page", one.page.difference(&other.page)),
            ("block", one.block.difference(&other.block)),
        ];
        for (name, difference) in parts {
            lines.extend(difference.map(|words| format!("  {name}: first differs {words}")));
        }
        Difference(lines.join("\n"))
    }
}

fn attempt(layer: Layer, command: Command, lent: &Lent) -> Outcome {
    let mut left = lent.clone();
    // What a layer that panics has left behind is of no interest: that it did ends the
    // run.
    let reply = panic::catch_unwind(AssertUnwindSafe(|| (layer.run)(command, &mut left)));
    Outcome { reply: reply.unwrap_or(Reply::Panicked), left }
}

#[cfg(test)]
mod tests {
    use super::*;
    use crate::command::Action;
    use crate::guarded::Guarded;
    use crate::layer::SECOND;
    use second::Shape;

    const BREAKS_OFF: Layer = Layer { name: "breaks off", run: |_, _| panic!("as it should") };

    /// What is said of a format of nothing by two layers.
    fn said(tested: Layer, second: Layer) -> Option<String> {
        let shape = Shape { pages: 4, logical: 2, logs: 1 };
        let command = Command { shape, action: Action::Format { cut: 0 } };
        let none = Guarded::new(&[], 0);
        let lent = Lent {
            data: none.clone(),
            spare: none.clone(),
            table: Guarded::new(&[], 0),
            page: none.clone(),
            block: none,
        };
        let ran = Lockstep::new(tested, second).run(command, &lent);
        ran.err().map(|difference| difference.0)
    }

    #[test]
    fn a_layer_that_panics_is_reported() {
        assert_eq!(said(SECOND, SECOND), None);
        for (tested, second) in [(BREAKS_OFF, SECOND), (SECOND, BREAKS_OFF)] {
            let words = said(tested, second).expect("a difference");
            assert!(words.contains("\n  breaks off: it panicked"), "{words}");
            assert!(words.contains("\n  the second program: answer 1, "), "{words}");
        }
    }

    #[test]
    fn two_layers_that_panic_alike_are_reported() {
        let words = said(BREAKS_OFF, BREAKS_OFF).expect("a difference");
        assert_eq!(words.matches("it panicked").count(), 2);
    }
}

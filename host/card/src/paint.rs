//! Colour, on a terminal only.

use second::blocks::Role;
use std::env;
use std::io::{self, IsTerminal};

/// Whether to use colour.
#[derive(Clone, Copy, Debug, PartialEq, Eq)]
pub enum Paint {
    Colour,
    Plain,
}

impl Paint {
    /// Colour where standard output is a terminal that has it, and NO_COLOR is not
    /// set.
    pub fn for_output() -> Paint {
        let unwanted = env::var_os("NO_COLOR").is_some_and(|value| !value.is_empty());
        let dumb = env::var_os("TERM").is_none_or(|terminal| terminal == "dumb");
        if io::stdout().is_terminal() && !unwanted && !dumb {
            Paint::Colour
        } else {
            Paint::Plain
        }
    }

    /// A text in the colour of a role; those that need attention on a ground.
    pub fn role(self, role: Role, text: &str) -> String {
        let colour = match role {
            Role::Data => "32",
            Role::Live => "36",
            Role::Free => "2",
            Role::Obsolete => "30;43",
            Role::Bad => "37;41",
            Role::Broken => "37;45",
        };
        match self {
            Paint::Colour => format!("\x1b[{colour}m{text}\x1b[0m"),
            Paint::Plain => text.to_string(),
        }
    }
}

#[cfg(test)]
mod tests {
    use super::Paint;
    use second::blocks::Role;

    #[test]
    fn colour_is_put_around_the_text() {
        assert_eq!(Paint::Colour.role(Role::Data, "data"), "\x1b[32mdata\x1b[0m");
        assert_eq!(Paint::Plain.role(Role::Bad, "BAD"), "BAD");
    }
}

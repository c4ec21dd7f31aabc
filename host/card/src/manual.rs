//! The manual page, `card(1)`, made of the texts of help.

use crate::help::VERBS;
use crate::texts;

/// The page in the language of `man`.
pub fn page() -> String {
    let mut page = String::from(concat!(
        ".TH CARD 1 \"\" \"card ",
        env!("CARGO_PKG_VERSION"),
        "\" \"Hamutsigra\"\n.SH NAME\n"
    ));
    page += &literal(&texts::CARD.replacen("card:", "card -", 1));
    page += ".SH SYNOPSIS\n";
    page += &as_it_stands(&VERBS.iter().map(|about| about.usage()).collect::<String>());
    page += ".SH DESCRIPTION\n";
    page += &as_it_stands(&format!("{}{}", texts::ABOUT_SHAPE, texts::IMAGE));
    page += ".SH VERBS\n";
    for about in &VERBS {
        page += &format!(".SS {}", literal(&about.usage()));
        page += &as_it_stands(about.text);
    }
    page += ".SH OPTIONS OF ALL VERBS WITH A SHAPE\n";
    page += &as_it_stands(texts::SHAPE.trim_start_matches('\n'));
    page += ".SH EXIT STATUS\n";
    page += &as_it_stands(texts::STATUS.trim_start_matches('\n'));
    page
}

/// Lines that are kept as they are.
fn as_it_stands(text: &str) -> String {
    format!(".nf\n{}.fi\n", literal(text))
}

/// Text in which nothing is taken for a word of the language.
fn literal(text: &str) -> String {
    let line = |line: &str| {
        let line = line.replace('\\', "\\e").replace('-', "\\-");
        if line.starts_with('.') || line.starts_with('\'') {
            format!("\\&{line}\n")
        } else {
            format!("{line}\n")
        }
    };
    text.lines().map(line).collect()
}

//! Reads a journal from standard input and prints its recording; with the word `page` its page, and
//! with `upgrade` or `downgrade` the converted journal, lent as many bytes as it has or another number
//! of them; or the refusal.

use second::conversion::CONVERSIONS;
use second::print;
use std::io::Read;

/// The text of a journal.
type Text = Box<dyn Fn(&[u8]) -> String>;

fn main() {
    let arguments: Vec<String> = std::env::args().skip(1).collect();
    let arguments: Vec<&str> = arguments.iter().map(String::as_str).collect();
    let Some(text) = asked(&arguments) else {
        eprintln!("usage: record [page | upgrade [LENT] | downgrade [LENT]] < JOURNAL-FILE");
        std::process::exit(2);
    };
    let mut bytes = Vec::new();
    std::io::stdin()
        .read_to_end(&mut bytes)
        .expect("standard input can be read");
    print!("{}", text(&bytes));
}

/// The text that the arguments ask for, if they ask for one.
fn asked(arguments: &[&str]) -> Option<Text> {
    match *arguments {
        [] => Some(Box::new(print::line)),
        ["page"] => Some(Box::new(print::page)),
        [word] => converted(word, None),
        [word, lent] => converted(word, Some(lent.parse().ok()?)),
        _ => None,
    }
}

/// The text of a conversion that is named by its word.
fn converted(word: &str, lent: Option<usize>) -> Option<Text> {
    let way = CONVERSIONS.into_iter().find(|way| way.word() == word)?;
    Some(Box::new(move |bytes| {
        print::conversion(way, bytes, lent.unwrap_or(bytes.len()))
    }))
}

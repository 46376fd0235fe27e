//! The words behind a use: operands and options.

use crate::ending::{unusable, Outcome};
use crate::files;
use crate::uses::Use;
use std::ffi::{OsStr, OsString};

/// What a use was given.
pub struct Given {
    pub operands: Vec<OsString>,
    options: Vec<(&'static str, OsString)>,
}

impl Given {
    /// The value of an option that takes one.
    pub fn option(&self, name: &str) -> Option<&OsString> {
        let named = |(option, _): &&(&str, OsString)| *option == name;
        self.options.iter().find(named).map(|(_, value)| value)
    }
}

/// Sorts the words behind a use, or says what is wrong with them.
pub fn take(one: &Use, words: &[OsString]) -> Outcome<Given> {
    let mut given = Given {
        operands: Vec::new(),
        options: Vec::new(),
    };
    let mut words = words.iter();
    while let Some(word) = words.next() {
        let text = word.to_string_lossy();
        if text == "--" {
            given.operands.extend(words.by_ref().cloned());
        } else if !text.starts_with('-') || files::is_standard(word) {
            given.operands.push(word.clone());
        } else {
            let (name, inline) = match text.split_once('=') {
                Some((name, value)) => (name.to_string(), Some(OsString::from(value))),
                None => (text.into_owned(), None),
            };
            let Some(option) = one.options.iter().find(|option| **option == name) else {
                return wrong(one, &format!("no option {name}"));
            };
            let Some(value) = inline.or_else(|| words.next().cloned()) else {
                return wrong(one, &format!("{option} needs a value"));
            };
            if given.option(option).is_some() {
                return wrong(one, &format!("{option} is given twice"));
            }
            given.options.push((option, value));
        }
    }
    counted(one, given)
}

fn counted(one: &Use, given: Given) -> Outcome<Given> {
    let many = given.operands.len();
    if many < *one.operands.start() {
        return wrong(one, "something is missing");
    }
    if many > *one.operands.end() {
        let extra = given.operands[*one.operands.end()].to_string_lossy();
        return wrong(one, &format!("'{extra}' is one too many"));
    }
    Ok(given)
}

/// Standard input can be one of two inputs, which are these, but not both.
pub fn not_both_standard(one: &Use, inputs: [&OsStr; 2], these: &str) -> Outcome<()> {
    if inputs.into_iter().all(files::is_standard) {
        return wrong(one, &format!("standard input can't be both {these}"));
    }
    Ok(())
}

/// What is wrong with the words behind a use, and how it is used.
pub fn wrong<T>(one: &Use, what: &str) -> Outcome<T> {
    let mut message = format!("{}: {what}", one.name);
    for form in one.forms {
        message += &format!("\nusage: canceller {form}");
    }
    unusable(message)
}

//! Judges signatures, of the command line or of a CSV file.

use super::{plan_in, Use};
use crate::arguments::{not_both_standard, wrong, Given};
use crate::canceller::{self, Refusal, Verdict};
use crate::csv::{self, Asked};
use crate::ending::{say, say_refused, unusable, Outcome, Status};
use crate::files::{self, Output};
use crate::wafer::Wafer;
use crate::{bits, numbers};
use std::ffi::{OsStr, OsString};

pub const USE: Use = Use {
    name: "judge",
    forms: &[
        "judge FILE.plan SIGNATURE..",
        "judge FILE.plan --csv DIES.csv [-o OUT.csv] [--column NAME] [--map MAP.svg]",
    ],
    does: "judge signatures: each passes, or fails at a word",
    more: "\
A signature is decimal or 0x... Its line says whether it passes or at which word it fails first, and has the cancelled bits,
word 0's first.

With --csv a column of signatures is judged: the one that the header calls 'signature', or NAME. Every row passes through
with two fields more: the verdict (pass, fail, refused, unreadable) and the index (of the word that fails; for refused its
number; else empty). Any number of rows of up to 1 MiB; a summary goes to standard error. With --map a wafer map is drawn of
the columns x and y, whole numbers; of two rows for one place the last one counts.

Example: canceller judge sample.plan 3 0x0 7
         canceller judge sample.plan --csv dies.csv -o judged.csv --map map.svg",
    options: &["--csv", "-o", "--column", "--map"],
    operands: 1..=usize::MAX,
    run,
};

fn run(given: &Given) -> Outcome {
    let signatures = &given.operands[1..];
    match given.option("--csv") {
        Some(csv) if signatures.is_empty() => judge_csv(given, csv),
        Some(_) => wrong(&USE, "signatures and --csv don't go together"),
        None if signatures.is_empty() => wrong(&USE, "no signature is given"),
        None => judge_listed(given, signatures),
    }
}

fn judge_listed(given: &Given, signatures: &[OsString]) -> Outcome {
    if let Some(option) = ["-o", "--column", "--map"]
        .into_iter()
        .find(|option| given.option(option).is_some())
    {
        return wrong(&USE, &format!("{option} goes with --csv"));
    }
    let words: Vec<u64> = signatures
        .iter()
        .map(|s| word_of(s))
        .collect::<Outcome<_>>()?;
    let (file, plan) = plan_in(&given.operands[0])?;
    let (mut worst, mut text) = (Status::Done, String::new());
    let mut refused = Vec::new();
    for (signature, name) in words.into_iter().zip(signatures) {
        let name = name.to_string_lossy();
        let (status, line) = match canceller::judge(&file.bytes, signature) {
            Ok((cancelled, verdict)) => {
                judged(verdict, &bits::row(cancelled, plan.words.len() as u64))
            }
            Err(Refusal(number)) => {
                refused.push((format!("signature {name}"), number));
                (Status::Refused, format!("refused {number}"))
            }
        };
        worst = worst.max(status);
        text += &format!("{name}: {line}\n");
    }
    files::write(None, text.as_bytes())?;
    for (of, number) in refused {
        say_refused(&of, number);
    }
    Ok(worst)
}

fn judged(verdict: Verdict, cancelled: &str) -> (Status, String) {
    match verdict {
        Verdict::Passes => (Status::Done, format!("passes, cancelled bits {cancelled}")),
        Verdict::FailsAt(word) => (
            Status::Fails,
            format!("fails at word {word}, cancelled bits {cancelled}"),
        ),
    }
}

fn word_of(text: &OsStr) -> Outcome<u64> {
    let bytes = text.as_encoded_bytes();
    match numbers::word(bytes) {
        Some(word) => Ok(word),
        None => {
            let found = numbers::found(bytes);
            unusable(format!(
                "judge: expected a signature, {}, found {found}",
                numbers::WORD
            ))
        }
    }
}

fn judge_csv(given: &Given, csv: &OsStr) -> Outcome {
    let (output, map) = (given.option("-o"), given.option("--map"));
    let standard = |path: Option<&OsString>| path.is_some_and(|path| files::is_standard(path));
    not_both_standard(&USE, [&given.operands[0], csv], "the plan and the rows")?;
    if standard(map) && (output.is_none() || standard(output)) {
        return wrong(
            &USE,
            "standard output can't be both the rows and the map: -o FILE",
        );
    }
    let column = match given.option("--column") {
        Some(name) => name.to_string_lossy().into_owned(),
        None => "signature".to_string(),
    };
    let (file, _) = plan_in(&given.operands[0])?;
    let mut wafer = map.map(|_| Wafer::default());
    let mut rows = Output::to(output)?;
    let asked = Asked {
        plan: &file.bytes,
        csv,
        column: &column,
        wafer: wafer.as_mut(),
    };
    let tally = csv::judge(asked, &mut rows)?;
    rows.flush()?;
    let mut drawn = None;
    if let Some(wafer) = &wafer {
        let mut picture = Output::to(map)?;
        let title = format!("{} by {}", files::name_of(csv), file.name);
        picture.put(wafer.drawn(&title)?.as_bytes())?;
        picture.flush()?;
        drawn = Some(picture);
    }
    rows.close()?;
    drawn.map_or(Ok(()), Output::close)?;
    let name = files::name_of(csv);
    let retests = wafer.iter().filter_map(Wafer::retests);
    for line in tally.summary().into_iter().chain(retests) {
        say(&format!("{name}: {line}"));
    }
    Ok(tally.status())
}

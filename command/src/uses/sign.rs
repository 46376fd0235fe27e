//! The signature of a record.

use super::{Input, Use};
use crate::arguments::{not_both_standard, Given};
use crate::canceller::{self, RECORD_MAX, SET_MAX};
use crate::ending::{of, Outcome, Status};
use crate::files;

pub const USE: Use = Use {
    name: "sign",
    forms: &["sign FILE.set FILE.record"],
    does: "print the signature of a record",
    more: "\
The signature is printed in decimal. It uses every cell as recorded, the unknown ones too.

Example: canceller sign sample.set sample.record",
    options: &[],
    operands: 2..=2,
    run,
};

fn run(given: &Given) -> Outcome {
    let (set, record) = (&given.operands[0], &given.operands[1]);
    not_both_standard(&USE, [set, record], "the set and the record")?;
    let set = Input::read(set, SET_MAX)?;
    let record = Input::read(record, RECORD_MAX)?;
    let signed = canceller::sign(&set.bytes, &record.bytes);
    // 12 and 13 are about the record, all others about the set
    let about = match signed {
        Err(canceller::Refusal(12 | 13)) => &record.name,
        _ => &set.name,
    };
    let signature = of(about, signed)?;
    files::write(None, format!("{signature}\n").as_bytes())?;
    Ok(Status::Done)
}

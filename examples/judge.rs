//! judge SET SIGNATURE: plans the set and judges the signature, a decimal number. Ends with 0 where it passes, 1 where it fails
//! and 2 where the input is refused or can't be read.

mod canceller;

use canceller::Verdict;
use std::error::Error;
use std::process::ExitCode;

fn verdict() -> Result<Verdict, Box<dyn Error>> {
    let arguments: Vec<String> = std::env::args().skip(1).collect();
    let [path, signature] = &arguments[..] else {
        return Err("usage: judge SET SIGNATURE".into());
    };
    let signature = signature
        .parse::<u64>()
        .map_err(|_| format!("{signature} is not a signature: a number from 0 to 2^64 - 1"))?;
    let set = std::fs::read(path).map_err(|e| format!("{path}: {e}"))?;
    let plan = canceller::write_plan(&canceller::plan(&set)?)?;
    let (_, verdict) = canceller::judge(&plan, signature)?;
    Ok(verdict)
}

fn main() -> ExitCode {
    match verdict() {
        Ok(Verdict::Passes) => {
            println!("passes");
            ExitCode::from(0)
        }
        Ok(Verdict::FailsAt(index)) => {
            println!("fails at word {index}");
            ExitCode::from(1)
        }
        Err(why) => {
            eprintln!("{why}");
            ExitCode::from(2)
        }
    }
}

//! The twin as `tally`: a deck from standard input, its report or three numbers to standard output. With `composite`, the
//! deck is a composite's.

use std::io::{Read, Write};
use twin::Sort;

fn main() -> std::io::Result<()> {
    let args: Vec<String> = std::env::args().skip(1).collect();
    let sort = match args.iter().map(String::as_str).collect::<Vec<_>>()[..] {
        [] => Sort::Ordinary,
        ["composite"] => Sort::Composite,
        _ => {
            eprintln!("twin_tally [composite]");
            std::process::exit(2);
        }
    };
    let mut deck = Vec::new();
    std::io::stdin().read_to_end(&mut deck)?;
    let mut out = vec![0; twin::LONGEST_REPORT];
    let outcome = twin::report(sort, &deck, &mut out);
    let mut stdout = std::io::stdout();
    match outcome {
        (0, length, _) => stdout.write_all(&out[..length]),
        stop => stdout.write_all(&twin::report::refusal_line(stop)),
    }
}

//! Writes trial decks: `twin_decks SEED FROM COUNT FOLDER [composite]` makes FOLDER/NNNNNN.deck, and prints each with its
//! buffer's length and what the twin answers.

use twin::Sort;

fn main() -> std::io::Result<()> {
    let args: Vec<String> = std::env::args().skip(1).collect();
    let (seed, from, count, folder, sort) = match &args[..] {
        [seed, from, count, folder] => (seed, from, count, folder, Sort::Ordinary),
        [seed, from, count, folder, sort] if sort == "composite" => (seed, from, count, folder, Sort::Composite),
        _ => {
            eprintln!("twin_decks SEED FROM COUNT FOLDER [composite]");
            std::process::exit(2);
        }
    };
    let whole = |s: &String| s.parse::<u64>().unwrap_or_else(|_| panic!("no whole number: {s}"));
    std::fs::create_dir_all(folder)?;
    let mut out = vec![0; 2 * twin::LONGEST_REPORT];
    for place in whole(from)..whole(from) + whole(count) {
        let t = twin::decks::trial(sort, whole(seed), place);
        std::fs::write(format!("{folder}/{place:06}.deck"), &t.deck)?;
        let (number, line, field) = twin::report(sort, &t.deck, &mut out[..t.room]);
        println!("{place:06} {} {number} {line} {field}", t.room);
    }
    Ok(())
}

//! Holds the library to the source's own mfl.rs on generated texts, in one process: what `compare::held` looks at, at the source's own limit
//! for counts.
//!
//! usage: compare N SEED
//!
//! The status is 1 where some text differs, 3 where the source is not there.

#[cfg(without_source)]
fn main() {
    compare::without_source()
}

#[cfg(not(without_source))]
fn main() {
    comparison::main()
}

#[cfg(not(without_source))]
mod comparison {
    use std::collections::BTreeMap;
    use std::time::Instant;

    use compare::held::{held, smallest, Outcome};
    use compare::texts::{Kind, Texts};

    /// How many disagreements end the run.
    const ENOUGH: usize = 20;

    #[derive(Default)]
    struct Tally {
        texts: u64,
        accepted: u64,
        refused: u64,
        at_a_limit: u64,
    }

    pub fn main() {
        let arguments: Vec<u64> = std::env::args().skip(1).filter_map(|word| word.parse().ok()).collect();
        let [number, seed] = arguments[..] else {
            eprintln!("usage: compare N SEED");
            std::process::exit(2);
        };
        let start = Instant::now();
        let source = compare::source!(compare);
        let mut texts = Texts::new(seed);
        let mut kinds: BTreeMap<Kind, Tally> = BTreeMap::new();
        let mut refusals: BTreeMap<u32, u64> = BTreeMap::new();
        let mut statements = 0;
        let mut differing: Vec<Vec<u8>> = Vec::new();
        let mut left = number;
        while left > 0 && differing.len() < ENOUGH {
            left -= 1;
            let (kind, text) = texts.text();
            let tally = kinds.entry(kind).or_default();
            tally.texts += 1;
            match held(&text, &source, source.ceiling) {
                Ok(Outcome::Accepted { statements: compared }) => {
                    tally.accepted += 1;
                    statements += compared;
                }
                Ok(Outcome::Refused(number)) => {
                    tally.refused += 1;
                    *refusals.entry(number).or_default() += 1;
                }
                Ok(Outcome::AtALimit(number)) => {
                    tally.at_a_limit += 1;
                    *refusals.entry(number).or_default() += 1;
                }
                Err(_) => differing.push(text),
            }
        }

        println!("{} texts of seed {seed}, {statements} statements compared by value, {:.0?}", number - left, start.elapsed());
        println!("{:>9} {:>9} {:>9} {:>9}", "texts", "accepted", "refused", "limit");
        for (kind, tally) in &kinds {
            println!("{:9} {:9} {:9} {:9}  {}", tally.texts, tally.accepted, tally.refused, tally.at_a_limit, kind.words());
        }
        let refusals: Vec<String> = refusals.iter().map(|(number, times)| format!("{number}: {times}")).collect();
        println!("refused by {}", refusals.join(", "));
        if let Some(shortest) = differing.iter().min_by_key(|text| text.len()) {
            let (text, why) = smallest(shortest.clone(), |text| held(text, &source, source.ceiling).err());
            println!("{} differ; the smallest, {} bytes: {:?}\n  {why}", differing.len(), text.len(), String::from_utf8_lossy(&text));
            std::process::exit(1);
        }
        println!("all agree");
    }
}

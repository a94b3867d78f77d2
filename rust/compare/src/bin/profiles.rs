//! Holds the PK-only profile, `mfl_profile`, to its rule, which stands here a second time, over the statements of the source's mfl.rs: by the
//! keyword that the source says of each, and every count that the source says it stands for. On generated texts near the edges of the profile,
//! each under ceilings below 10, at it and above; the source has a copy for each (build.rs). What reading refuses must be refused so by
//! `mfl_profile`, and reading itself is held to the source (`compare::held`). Every text is also given under ceilings above 256.
//!
//! Where a text is of the profile and resolves in one of three models, its ground text, which must be the source's, must be of the profile too:
//! by `mfl_profile` and by the rule.
//!
//! usage: profiles [TEXTS [SEED]]
//!
//! The status is 1 where some text differs, 3 where the source is not there.

#[cfg(without_source)]
fn main() {
    compare::without_source()
}

#[cfg(not(without_source))]
fn main() {
    comparison::main()
}

#[cfg(not(without_source))]
mod comparison {
    use std::collections::BTreeMap;
    use std::time::Instant;

    use compare::held::{characters, ensure, held, models, smallest, Outcome, Source};
    use compare::texts::Texts;
    use dumachik::{count_under, profile_under, resolve, Mfl, ModelContext};

    /// How many disagreements end the run.
    const ENOUGH: usize = 20;
    const ABOVE: [u32; 3] = [257, 65600, u32::MAX];

    const OUTSIDE: [&str; 4] = ["DIRECTEFFECT", "EFFECTCOMP", "INDIRECTEFFECT", "METABOLITE"];
    const FIVE: [&str; 5] = ["ABSORPTION", "ELIMINATION", "PERIPHERALS", "TRANSITS", "LAGTIME"];
    const MOST: u32 = 10;

    /// What the rule looks at in a statement: its keyword, and every count that it stands for.
    struct Said {
        keyword: String,
        counts: Vec<u32>,
    }

    struct EachSource {
        source: Source,
        said: fn(&str) -> Result<Vec<Said>, String>,
    }

    /// The statements of a copy of mfl.rs, each by what the source itself says of it.
    macro_rules! each_source {
        ($module:ident) => {
            EachSource {
                source: compare::source!($module),
                said: |text| {
                    use $module::mfl::{Feature, Mfl, Statement, TransitCounts};
                    let said = |statement: &Statement| match statement {
                        Statement::Let { .. } => Said { keyword: "LET".into(), counts: Vec::new() },
                        Statement::Feature(feature) => Said {
                            keyword: feature.keyword(),
                            counts: match feature {
                                Feature::Peripherals { counts, .. } => counts.expand(),
                                Feature::Transits { counts: TransitCounts::Counts(counts), .. } => counts.expand(),
                                _ => Vec::new(),
                            },
                        },
                    };
                    Ok(Mfl::parse(text)?.statements.iter().map(said).collect())
                },
            }
        };
    }

    include!(concat!(env!("OUT_DIR"), "/profiles.rs"));

    /// Document 02: "It says yes exactly for those".
    fn fits(space: &[Said]) -> bool {
        let times = |keyword: &str| space.iter().filter(|said| said.keyword == keyword).count();
        let highest = space.iter().flat_map(|said| &said.counts).max();
        OUTSIDE.iter().all(|keyword| times(keyword) == 0)
            && FIVE.iter().all(|keyword| times(keyword) <= 1)
            && highest.is_none_or(|&count| count <= MOST)
    }

    /// The first statement with a fault, and its first fault: the number and the index.
    fn fault(space: &[Said]) -> Option<(u32, usize)> {
        (0..space.len()).find_map(|index| {
            let (before, Said { keyword, counts }) = (&space[..index], &space[index]);
            let number = if OUTSIDE.contains(&keyword.as_str()) {
                22
            } else if FIVE.contains(&keyword.as_str()) && before.iter().any(|earlier| earlier.keyword == *keyword) {
                23
            } else if counts.iter().any(|&count| count > MOST) {
                24
            } else {
                return None;
            };
            Some((number, index))
        })
    }

    /// What became of the texts under a ceiling: how many passed, were refused by each number of the profile, by reading; and how many ground
    /// texts of those that passed were looked at.
    #[derive(Default)]
    struct Tally {
        passed: u64,
        against: BTreeMap<u32, u64>,
        by_reading: u64,
        ground: u64,
    }

    /// Looks at a text under a ceiling and counts what became of it; an error says how they differ.
    fn look(text: &[u8], each: &EachSource, models: &[ModelContext], tally: &mut Tally) -> Result<(), String> {
        let ceiling = each.source.ceiling;
        let ours = profile_under(text, ceiling);
        let read = held(text, &each.source, ceiling)?;
        if !matches!(read, Outcome::Accepted { .. }) {
            let by_reading = count_under(text, ceiling).map(|_| ());
            ensure(ours == by_reading, || format!("{ours:?}; reading: {by_reading:?}"))?;
            tally.by_reading += 1;
            return Ok(());
        }
        let space = (each.said)(&characters(text))?;
        let theirs = fault(&space);
        assert_eq!(theirs.is_none(), fits(&space), "the two statements of the rule differ");
        let found = ours.as_ref().err().map(|refusal| (refusal.number(), refusal.place));
        ensure(found == theirs, || format!("{found:?}, by the rule {theirs:?}"))?;
        match theirs {
            Some((number, _)) => *tally.against.entry(number).or_default() += 1,
            None => {
                tally.passed += 1;
                for model in models {
                    tally.ground += u64::from(ground_fits(text, each, model)?);
                }
            }
        }
        Ok(())
    }

    /// Whether a text that passes has a ground text in a model; it must pass too.
    fn ground_fits(text: &[u8], each: &EachSource, model: &ModelContext) -> Result<bool, String> {
        let ceiling = each.source.ceiling;
        let space = Mfl::parse_under(text, ceiling).map_err(|refusal| refusal.to_string())?;
        let Ok(resolved) = resolve(&space, model) else { return Ok(false) };
        let ground = resolved.mfl.as_str();
        let theirs = (each.source.ground)(&characters(text), model)?;
        ensure(ground == theirs.text, || format!("the ground text {ground:?}, the source's {:?}", theirs.text))?;
        let ours = profile_under(ground.as_bytes(), ceiling);
        ensure(ours.is_ok(), || format!("it passes, and its ground text {ground:?} does not: {ours:?}"))?;
        ensure(fits(&(each.said)(ground)?), || format!("it passes, and its ground text {ground:?} does not by the rule"))?;
        Ok(true)
    }

    /// By 21 at 0 under ceilings above 256, whatever the text.
    fn refused_above(text: &[u8]) -> Result<(), String> {
        ABOVE.into_iter().try_for_each(|ceiling| {
            let answer = profile_under(text, ceiling).map_err(|refusal| (refusal.number(), refusal.place));
            ensure(answer == Err((21, 0)), || format!("under {ceiling}: {answer:?}"))
        })
    }

    pub fn main() {
        let word = |at: usize, or: u64| std::env::args().nth(at).map_or(Some(or), |word| word.parse().ok());
        let (Some(number), Some(seed)) = (word(1, 100_000), word(2, 1)) else {
            eprintln!("usage: profiles [TEXTS [SEED]]");
            std::process::exit(2);
        };
        let start = Instant::now();
        let mut each: Vec<EachSource> = sources().into();
        each.push(each_source!(compare));
        each.sort_by_key(|each| each.source.ceiling);
        let models = models();
        let mut texts = Texts::near_ceilings(seed);
        let mut tallies: BTreeMap<u32, Tally> = BTreeMap::new();
        let mut differing: Vec<(Vec<u8>, Option<&EachSource>)> = Vec::new();
        let mut done = 0;
        while done < number && differing.len() < ENOUGH {
            done += 1;
            let text = texts.profiled();
            for each in &each {
                if look(&text, each, &models, tallies.entry(each.source.ceiling).or_default()).is_err() {
                    differing.push((text.clone(), Some(each)));
                }
            }
            if refused_above(&text).is_err() {
                differing.push((text, None));
            }
        }

        println!("{done} texts of seed {seed}, {:.0?}", start.elapsed());
        println!("{:>9} {:>9} {:>9} {:>9} {:>9} {:>9} {:>9}", "ceiling", "passed", "22", "23", "24", "reading", "ground");
        let against = |tally: &Tally, number| tally.against.get(&number).copied().unwrap_or(0);
        for (ceiling, tally) in &tallies {
            let [outside, second, high] = [22, 23, 24].map(|number| against(tally, number));
            let Tally { passed, by_reading, ground, .. } = tally;
            println!("{ceiling:9} {passed:9} {outside:9} {second:9} {high:9} {by_reading:9} {ground:9}");
        }
        if let Some((text, each)) = differing.iter().min_by_key(|(text, _)| text.len()) {
            let differs = |text: &[u8]| match each {
                Some(each) => look(text, each, &models, &mut Tally::default()).err(),
                None => refused_above(text).err(),
            };
            let (text, why) = smallest(text.clone(), differs);
            let under = each.map_or("above 256".into(), |each| each.source.ceiling.to_string());
            println!("the smallest that differs, under {under}: {:?}\n  {why}", String::from_utf8_lossy(&text));
        }
        let sum = |part: &dyn Fn(&Tally) -> u64| tallies.values().map(part).sum::<u64>();
        println!(
            "{done} texts at {} ceilings: {} passed, {} ground texts of them too; refused by 22: {}, 23: {}, 24: {}, by reading: {}; differences {}",
            each.len(),
            sum(&|tally| tally.passed),
            sum(&|tally| tally.ground),
            sum(&|tally| against(tally, 22)),
            sum(&|tally| against(tally, 23)),
            sum(&|tally| against(tally, 24)),
            sum(&|tally| tally.by_reading),
            differing.len()
        );
        std::process::exit(i32::from(!differing.is_empty()));
    }
}

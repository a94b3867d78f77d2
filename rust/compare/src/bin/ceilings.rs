//! Holds the library under ceilings for counts to the source's mfl.rs and resolve.rs with its limit set to the same number (build.rs), on
//! generated texts with counts near ceilings: what `compare::held` looks at; for one text in ten another, resolved in a model. Every text is
//! given to every call under ceilings above 256 as well, which must be refused by 21.
//!
//! usage: ceilings [TEXTS [SEED [OFF]]]
//!
//! With OFF, which may be negative, the library is given a ceiling that is so much higher than the source's limit, within 0 and 256, to see
//! that the comparison finds it. The status is 1 where some text differs, 3 where the source is not there.

#[cfg(without_source)]
fn main() {
    compare::without_source()
}

#[cfg(not(without_source))]
fn main() {
    comparison::main()
}

#[cfg(not(without_source))]
mod comparison {
    use std::collections::BTreeMap;
    use std::time::Instant;

    use compare::held::{characters, ensure, held, models, number_of, refused_by_all, smallest, Ground, Outcome, Source, BYTE, NUMBER};
    use compare::texts::Texts;
    use dumachik::{resolve, resolve_into_under, Buffers, Effect, Fault, Handed, Mfl, ModelContext, NoteNumbers, Refusal, WORKING};

    use compare::source as each_source;
    use Source as EachSource;

    include!(concat!(env!("OUT_DIR"), "/ceilings.rs"));

    /// How many disagreements end the run.
    const ENOUGH: usize = 20;
    /// One text in so many is followed by one that is resolved.
    const RESOLVED: i64 = 10;
    const ABOVE: [u32; 4] = [257, 258, 65536, u32::MAX];

    /// What became of the texts under a ceiling.
    #[derive(Default)]
    struct Tally {
        accepted: u64,
        refused: u64,
        at_a_limit: u64,
        resolved: u64,
        unresolved: u64,
    }

    struct Model {
        context: ModelContext,
        handed: Handed,
    }

    /// What a text is looked at for.
    #[derive(Clone, Copy)]
    enum Check<'a> {
        Read(&'a Source),
        Resolve(&'a Source, &'a Model),
        /// Under ceilings above 256.
        ReadAbove,
        ResolveAbove(&'a Model),
    }

    impl Check<'_> {
        /// Counts what became of a text on which all agree; an error says how they differ.
        fn look(&self, text: &[u8], off: i64, found: &mut Found) -> Result<(), String> {
            let given = |source: &Source| (i64::from(source.ceiling) + off).clamp(0, 256) as u32;
            match self {
                Check::Read(source) => match held(text, source, given(source))? {
                    Outcome::Accepted { .. } => found.under(source, |tally| &mut tally.accepted, None),
                    Outcome::Refused(number) => found.under(source, |tally| &mut tally.refused, Some(number)),
                    Outcome::AtALimit(number) => found.under(source, |tally| &mut tally.at_a_limit, Some(number)),
                },
                Check::Resolve(source, model) => match resolved(text, source, given(source), &model.context)? {
                    None => found.under(source, |tally| &mut tally.resolved, None),
                    Some(number) => found.under(source, |tally| &mut tally.unresolved, Some(number)),
                },
                Check::ReadAbove => found.above += refused_above(text).map(|()| 1)?,
                Check::ResolveAbove(model) => unresolved_above(text, &model.handed)?,
            }
            Ok(())
        }
    }

    /// What became of all texts.
    #[derive(Default)]
    struct Found {
        tallies: BTreeMap<u32, Tally>,
        refusals: BTreeMap<u32, u64>,
        above: u64,
    }

    impl Found {
        fn under(&mut self, source: &Source, part: fn(&mut Tally) -> &mut u64, refusal: Option<u32>) {
            *part(self.tallies.entry(source.ceiling).or_default()) += 1;
            if let Some(number) = refusal {
                *self.refusals.entry(number).or_default() += 1;
            }
        }

        fn sum(&self, part: fn(&Tally) -> u64) -> u64 {
            self.tallies.values().map(part).sum()
        }

        fn show(&self) {
            println!("{:>9} {:>9} {:>9} {:>9} {:>9} {:>9}", "ceiling", "accepted", "refused", "limit", "resolved", "not");
            for (ceiling, Tally { accepted, refused, at_a_limit, resolved, unresolved }) in &self.tallies {
                println!("{ceiling:9} {accepted:9} {refused:9} {at_a_limit:9} {resolved:9} {unresolved:9}");
            }
            println!("{} texts under {ABOVE:?}: refused by 21 at 0", self.above);
        }
    }

    pub fn main() {
        let word = |at: usize, or: i64| std::env::args().nth(at).map_or(Some(or), |word| word.parse().ok());
        let (Some(number), Some(seed), Some(off)) = (word(1, 100_000), word(2, 1), word(3, 0)) else {
            eprintln!("usage: ceilings [TEXTS [SEED [OFF]]]");
            std::process::exit(2);
        };
        let start = Instant::now();
        let (sources, models) = (sources(), models().map(|context| Model { handed: context.handed(), context }));
        let mut texts = Texts::near_ceilings(seed as u64);
        let (mut found, mut done, mut by_ceiling) = (Found::default(), 0, 0);
        let mut differing: Vec<(Vec<u8>, Check)> = Vec::new();
        while done < number && differing.len() < ENOUGH {
            done += 1;
            let look = |text: &[u8], check: Check<'_>, found: &mut Found| check.look(text, off, found).is_err();
            let (_, text) = texts.text();
            let before = found.sum(|tally| tally.accepted);
            let reading = sources.iter().map(Check::Read).chain([Check::ReadAbove]);
            differing.extend(reading.filter(|check| look(&text, *check, &mut found)).map(|check| (text.clone(), check)));
            let accepted = found.sum(|tally| tally.accepted) - before;
            by_ceiling += u64::from(accepted != 0 && accepted != sources.len() as u64);
            if done % RESOLVED == 0 {
                let text = texts.resolvable();
                let model = &models[(done / RESOLVED) as usize % models.len()];
                let resolving = sources.iter().map(|source| Check::Resolve(source, model)).chain([Check::ResolveAbove(model)]);
                differing.extend(resolving.filter(|check| look(&text, *check, &mut found)).map(|check| (text.clone(), check)));
            }
        }

        let took = start.elapsed();
        println!("{done} texts of seed {seed}, {took:.0?}; {by_ceiling} of them are accepted under some of the ceilings and refused under others");
        found.show();
        if let Some((text, check)) = differing.iter().min_by_key(|(text, _)| text.len()) {
            let (text, why) = smallest(text.clone(), |text| check.look(text, off, &mut Found::default()).err());
            let limit = match check {
                Check::Read(source) | Check::Resolve(source, _) => source.ceiling.to_string(),
                Check::ReadAbove | Check::ResolveAbove(_) => "of no account".into(),
            };
            println!("the smallest that differs, the source's limit being {limit}: {:?}\n  {why}", String::from_utf8_lossy(&text));
        }
        let refusals: Vec<String> = found.refusals.iter().map(|(number, times)| format!("{number}: {times}")).collect();
        println!(
            "{done} texts at {} ceilings: {} accepted, {} resolved, {} refused by {}; differences {}",
            sources.len(),
            found.sum(|tally| tally.accepted),
            found.sum(|tally| tally.resolved),
            found.sum(|tally| tally.refused + tally.at_a_limit + tally.unresolved),
            refusals.join(", "),
            differing.len()
        );
        std::process::exit(i32::from(!differing.is_empty()));
    }

    /// Every call refuses by 21 under ceilings above 256, whatever the text.
    fn refused_above(text: &[u8]) -> Result<(), String> {
        let refusal = Refusal { fault: Fault::CeilingTooHigh, place: 0 };
        for ceiling in ABOVE {
            refused_by_all(text, refusal, ceiling)?;
            let space = Mfl::parse_under(text, ceiling);
            ensure(space == Err(refusal), || format!("under {ceiling}: {space:?}"))?;
        }
        Ok(())
    }

    /// Resolve does too, but for a working buffer that is too short, which is 19; it leaves all outputs as they were, and the working buffer zero
    /// or, where that is too short, as it was.
    fn unresolved_above(text: &[u8], handed: &Handed) -> Result<(), String> {
        let lent = |work| Buffers {
            ground: vec![BYTE; 512],
            effects: vec![Effect { parameter: BYTE, covariate: BYTE, form: BYTE, operator: BYTE, optional: BYTE }; 64],
            notes: vec![NoteNumbers { reason: BYTE, index: BYTE }; 8],
            work: vec![NUMBER; work],
        };
        for ceiling in ABOVE {
            for (work, number) in [(WORKING, 21), (WORKING - 1, 19), (0, 19)] {
                let mut buffers = lent(work);
                let answer = resolve_into_under(text, &handed.block, &handed.lists, &mut buffers, ceiling);
                let refused = matches!(answer, Err(refusal) if (refusal.number(), refusal.place) == (number, 0));
                ensure(refused, || format!("Resolve under {ceiling} with {work} to work with: {answer:?}"))?;
                let before = lent(work);
                let same = (&buffers.ground, &buffers.effects, &buffers.notes) == (&before.ground, &before.effects, &before.notes);
                let left = if work < WORKING { NUMBER } else { 0 };
                ensure(same && buffers.work.iter().all(|&number| number == left), || {
                    format!("Resolve under {ceiling} writes, and refuses")
                })?;
            }
        }
        Ok(())
    }

    /// Resolve beside the source's: the same ground text, effects and number of notes, and the ground text its own under the same ceiling; or
    /// refused by the same number, which is given.
    fn resolved(text: &[u8], source: &Source, ceiling: u32, model: &ModelContext) -> Result<Option<u32>, String> {
        let theirs = (source.ground)(&characters(text), model);
        let of = |space: &Mfl| resolve(space, model).map_err(|why| why.refusal);
        let ours = Mfl::parse_under(text, ceiling).and_then(|space| of(&space));
        match (ours, theirs) {
            (Ok(ours), Ok(theirs)) => {
                let effects = ours.covariate_effects.iter().map(|effect| format!("{effect:?}")).collect();
                let ground = Ground { text: ours.mfl.render(), effects, notes: ours.notes.len() };
                ensure(ground == theirs, || format!("resolved to {ground:?}, the source to {theirs:?}"))?;
                let again = Mfl::parse_under(&ground.text, ceiling).and_then(|space| of(&space));
                let same = again.as_ref().is_ok_and(|again| again.mfl.as_str() == ground.text && ours.mfl.ceiling() == ceiling);
                ensure(same, || format!("the ground text {:?} resolves to {again:?}", ground.text))?;
                Ok(None)
            }
            // a limit that the source does not have: as reading has it
            (Err(Refusal { fault: fault @ (Fault::TextTooLong | Fault::TooMany), .. }), _) => match held(text, source, ceiling)? {
                Outcome::AtALimit(number) if number == fault as u32 => Ok(Some(number)),
                _ => Err(format!("{fault:?}, and not by reading")),
            },
            (Err(refusal), Err(message)) => {
                ensure(refusal.number() == resolving_number_of(&message), || format!("{refusal}; the source: {message}"))?;
                Ok(Some(refusal.number()))
            }
            (ours, theirs) => Err(format!("{ours:?}; the source: {theirs:?}")),
        }
    }

    /// Document 01's number for one of the source's refusals of a text in a model.
    fn resolving_number_of(message: &str) -> u32 {
        const RESOLVING: [(u32, &str); 10] = [
            (13, "is defined twice; a symbol has one definition"),
            (14, "is not a built-in symbol and no `LET("),
            (14, "needs a `[covariates]` block in the base model"),
            (14, "line, and the base model has none"),
            (15, "is not an individual parameter of the base model"),
            (15, "is not declared in the base model's `[covariates]` block"),
            (15, "is not a covariate column of the dataset"),
            (16, "is declared categorical, and"),
            (16, "is declared continuous, and"),
            (17, "is forced by more than one COVARIATE statement"),
        ];
        if message.starts_with("MFL:") {
            return number_of(message);
        }
        RESOLVING.iter().find(|(_, words)| message.contains(words)).map_or(0, |(number, _)| *number)
    }
}

//! Times the source's own mfl.rs and the library on the same texts, in one run and by turns: the best of several rounds, each a turn of every
//! text.
//!
//! usage: bench [ROUNDS]
//!
//! Columns: the source's ns, the library's ns, its ns a byte, and how many times as fast it is. The status is 3 where the source is not there.

#[cfg(without_source)]
fn main() {
    compare::without_source()
}

#[cfg(not(without_source))]
fn main() {
    times::main()
}

#[cfg(not(without_source))]
mod times {
    use std::hint::black_box;
    use std::time::{Duration, Instant};

    use compare::{mfl, resolve, MFL_RS};
    use dumachik::{count, print_into, resolve_into, Buffers, Fault};
    use ferx_core::CovariateKind;

    /// A round repeats a call for about this long.
    const ROUND: Duration = Duration::from_millis(2);

    const PAIR: &str = "COVARIATE?([CL,V,KA,MAT], [WT,AGE,SEX,CRCL,HT,ALB], [pow,lin,exp])  # a note on parameters and covariates\n\
                        PERIPHERALS([0,1,2,3],DRUG)\n";

    pub fn main() {
        let rounds = std::env::args().nth(1).and_then(|word| word.parse().ok()).unwrap_or(400);
        let full = of_size(16384);
        let mut late = full.clone();
        late.replace_range(late.len() - 1.., "(");
        let texts = [
            ("the space in mfl.rs's header", header_space()),
            ("256 statements", "IIV?([CL,V],EXP);LAGTIME(ON)\n".repeat(128)),
            ("16 KiB, full size", full),
            ("refused: an unknown mode", header_space().replace("pow", "power")),
            ("refused at the end of 16 KiB", late),
        ];
        let accepted = |text: &str| mfl::Mfl::parse(text).is_ok();

        let mut rows = Vec::new();
        for (name, text) in &texts {
            rows.push(Row::new("Count, the source's parse beside it", name, text, parse, |text| count(text.as_bytes()).is_ok()));
        }
        for (name, text) in &texts {
            rows.push(Row::new("Print, the source's parse and render beside it", name, text, parse_and_render, print(text.len())));
        }
        for (name, text) in texts.iter().filter(|(_, text)| accepted(text)) {
            let tree = |text: &str| !dumachik::Mfl::parse(text).is_ok_and(|space| space.is_empty());
            rows.push(Row::new("A tree of every statement, the source's parse beside it", name, text, parse, tree));
        }
        for size in [1024, 4096, 16384] {
            let head = "Print as the text grows, the source's parse and render beside it";
            rows.push(Row::new(head, "statements", &of_size(size), parse_and_render, print(size)));
        }

        for (name, text, context) in resolvable() {
            let head = "Resolve, the source's parse, resolve and render beside it";
            rows.push(Row::new(head, name, &text, resolved_by_source(&context), resolved(&context)));
        }

        // A round is one turn of every row, so that the rounds of a row are spread over the whole run: a machine that others use as well is
        // slow for seconds.
        for _ in 0..rounds {
            rows.iter_mut().for_each(Row::turn);
        }
        for (at, row) in rows.iter().enumerate() {
            if at == 0 || rows[at - 1].head != row.head {
                println!("{}{}", if at == 0 { "" } else { "\n" }, row.head);
            }
            row.show();
        }
    }

    type Call = Box<dyn FnMut(&str) -> bool>;

    /// A text, the source's call and the library's, each at its best so far.
    struct Row {
        head: &'static str,
        name: &'static str,
        text: String,
        theirs: Side,
        ours: Side,
    }

    struct Side {
        call: Call,
        times: u32,
        best: f64,
    }

    impl Row {
        fn new(
            head: &'static str,
            name: &'static str,
            text: &str,
            mut theirs: impl FnMut(&str) -> bool + 'static,
            mut ours: impl FnMut(&str) -> bool + 'static,
        ) -> Self {
            assert_eq!(theirs(text), ours(text), "{name}: only one of the two accepts it");
            let side = |mut call: Call| Side { times: times_in_a_round(text, &mut call), call, best: f64::MAX };
            Row { head, name, text: text.to_string(), theirs: side(Box::new(theirs)), ours: side(Box::new(ours)) }
        }

        fn turn(&mut self) {
            self.theirs.turn(&self.text);
            self.ours.turn(&self.text);
        }

        fn show(&self) {
            let (theirs, ours, bytes) = (self.theirs.best, self.ours.best, self.text.len());
            println!("| {} | {bytes} | {theirs:.0} | {ours:.0} | {:.2} | {:.2} |", self.name, ours / bytes as f64, theirs / ours);
        }
    }

    impl Side {
        fn turn(&mut self, text: &str) {
            self.best = self.best.min(nanoseconds(text, self.times, &mut self.call));
        }
    }

    /// Print into an output of so many bytes.
    fn print(size: usize) -> impl FnMut(&str) -> bool {
        let mut out = vec![0; size];
        move |text| print_into(text.as_bytes(), black_box(&mut out)).is_ok()
    }

    fn parse(text: &str) -> bool {
        black_box(mfl::Mfl::parse(text)).is_ok()
    }

    fn parse_and_render(text: &str) -> bool {
        black_box(mfl::Mfl::parse(text).map(|space| space.render())).is_ok()
    }

    /// Texts with contexts: the header's space and 80 COVARIATEs with symbols, with document 01's K and AGE, which the space names; the most
    /// effects that a ground text can have; and as many as may be brought, which the source accepts and which have too many pairs for us.
    fn resolvable() -> Vec<(&'static str, String, resolve::ModelContext)> {
        let words = |prefix: &str, n: usize| (0..n).map(|i| format!("{prefix}{i}")).collect::<Vec<_>>();
        let kind = |name: &str| if name == "SEX" { CovariateKind::Categorical } else { CovariateKind::Continuous };
        let context = |parameters: Vec<String>, bindings: &[(&str, &str)], covariates: Vec<String>| resolve::ModelContext {
            iiv: parameters.iter().take(2).cloned().collect(),
            template: Some(resolve::PkTemplate {
                keyword: "pk".into(),
                name: "one_cpt_oral".into(),
                bindings: bindings.iter().map(|(role, name)| (role.to_string(), name.to_string())).collect(),
            }),
            covariates: Some(covariates.iter().map(|name| (name.clone(), kind(name))).collect()),
            data_covariates: covariates,
            parameters,
        };
        let names = |text: &str| text.split(' ').map(str::to_string).collect::<Vec<_>>();
        let k = context(names("CL V KA"), &[("cl", "CL"), ("v", "V"), ("ka", "KA")], names("WT SEX AGE"));
        let symbols = "COVARIATE?(@PK,@CONTINUOUS,*);COVARIATE?(@IIV,@CATEGORICAL,*)\n".repeat(40);
        let wide = context(words("P", 32), &[("cl", "P0")], words("C", 16));
        let list = |names: &[String]| format!("[{}]", names.join(","));
        let every =
            |parameters: &[String], forms: &str| format!("COVARIATE?({},{},{forms})", list(parameters), list(&wide.all_covariates()));
        let distinct = every(&wide.parameters, "[lin,exp,pow,piece_lin]");
        let most = every(&wide.parameters[..16], "[lin,piece_lin,exp,pow,cat,cat2,custom]");
        let columns = resolve::ModelContext { covariates: None, ..wide.clone() };
        vec![
            ("the space in mfl.rs's header", header_space(), k.clone()),
            ("80 COVARIATEs with symbols", symbols, k),
            ("1,792 effects in 256 groups, the most", most, columns),
            ("2,048 distinct effects, refused by 18", distinct, wide),
        ]
    }

    fn resolved_by_source(context: &resolve::ModelContext) -> impl FnMut(&str) -> bool {
        let context = context.clone();
        move |text| {
            let answer = mfl::Mfl::parse(text).and_then(|space| resolve::resolve(&space, &context));
            black_box(answer.map(|resolved| (resolved.mfl.render(), resolved))).is_ok()
        }
    }

    /// Resolve into buffers of full size.
    fn resolved(context: &resolve::ModelContext) -> impl FnMut(&str) -> bool {
        let ours = dumachik::ModelContext {
            parameters: context.parameters.clone(),
            iiv: context.iiv.clone(),
            template: context.template.as_ref().map(|template| dumachik::PkTemplate {
                keyword: template.keyword.clone(),
                name: template.name.clone(),
                bindings: template.bindings.clone(),
            }),
            covariates: context
                .covariates
                .as_ref()
                .map(|declared| declared.iter().map(|(name, kind)| (name.clone(), kind_of(*kind))).collect()),
            data_covariates: context.data_covariates.clone(),
        };
        let handed = ours.handed();
        let mut buffers = Buffers::default();
        move |text| {
            let answer = resolve_into(text.as_bytes(), &handed.block, &handed.lists, black_box(&mut buffers));
            answer.map_or_else(|refusal| refusal.fault == Fault::TooLarge, |lengths| lengths.ground > 0)
        }
    }

    fn kind_of(kind: CovariateKind) -> dumachik::CovariateKind {
        match kind {
            CovariateKind::Continuous => dumachik::CovariateKind::Continuous,
            CovariateKind::Categorical => dumachik::CovariateKind::Categorical,
        }
    }

    /// The space that the header comment of mfl.rs shows.
    fn header_space() -> String {
        let block = MFL_RS.lines().skip_while(|line| *line != "//! ```text").skip(1).take_while(|line| *line != "//! ```");
        block.map(|line| line.trim_start_matches("//! ").to_string() + "\n").collect()
    }

    /// Statements, and blanks to the size.
    fn of_size(size: usize) -> String {
        format!("{:size$}", PAIR.repeat(size / PAIR.len()))
    }

    fn times_in_a_round(text: &str, call: &mut Call) -> u32 {
        let start = Instant::now();
        let mut times = 0;
        while start.elapsed() < ROUND {
            black_box(call(black_box(text)));
            times += 1;
        }
        times
    }

    fn nanoseconds(text: &str, times: u32, call: &mut Call) -> f64 {
        let start = Instant::now();
        for _ in 0..times {
            black_box(call(black_box(text)));
        }
        start.elapsed().as_nanos() as f64 / f64::from(times)
    }
}

//! Texts for comparisons, the ideas of tools/compare/texts.py: good ones, damaged ones, and ones at each boundary.

use crate::random::Random;

const ABSORPTION: &[&str] = &["INST", "FO", "ZO", "SEQ-ZO-FO", "WEIBULL"];
const ELIMINATION: &[&str] = &["FO", "ZO", "MM", "MIX-FO-MM"];
const PERIPHERAL: &[&str] = &["DRUG", "MET"];
const DEPOT: &[&str] = &["DEPOT", "NODEPOT"];
const LAGTIME: &[&str] = &["OFF", "ON"];
const EFFECT: &[&str] = &["lin", "piece_lin", "exp", "pow", "cat", "cat2", "custom"];
const PD: &[&str] = &["LINEAR", "EMAX", "SIGMOID", "STEP", "LOGLIN"];
const PRODUCTION: &[&str] = &["PRODUCTION", "DEGRADATION"];
const METABOLITE: &[&str] = &["BASIC", "PSC"];
const VARIABILITY: &[&str] = &["EXP", "ADD", "PROP", "LOG", "RE_LOG"];
const LEVEL: &[&str] = &["IIV", "IOV"];

const KEYWORDS: &[&str] = &[
    "ABSORPTION",
    "ELIMINATION",
    "PERIPHERALS",
    "TRANSITS",
    "LAGTIME",
    "COVARIATE",
    "ALLOMETRY",
    "DIRECTEFFECT",
    "EFFECTCOMP",
    "INDIRECTEFFECT",
    "METABOLITE",
    "IIV",
    "IOV",
    "COVARIANCE",
    "LET",
];
const WITH_COUNTS: &[&str] = &["PERIPHERALS", "TRANSITS"];
const OPTIONAL: &[&str] = &["COVARIATE", "IIV", "IOV", "COVARIANCE"];
const NAMES: &[&str] = &["CL", "V", "KA", "WT", "AGE", "Vc", "_x", "a-b", "70", "1.5", "SEX", "n", "N", "Q2"];
const WORDS: &[&str] = &["CL", "V", "KA", "WT", "AGE", "Vc", "_x", "a-b", "SEX", "n", "N", "Q2"];
const SMALL: &[&str] = &["0", "1", "2", "007", "64", "0000000000064", "3", "12"];
const NUMBERS: &[&str] = &["0", "1", "2", "007", "64", "65", "0000000000064", "3", "12", "1.0", "4294967295", "4294967296", "99"];
const ODD: &[&str] =
    &["[]", "+", "*", "@X", "3", "x", "1..2", "[1,x]", "[x]", "[FO]", "$", "", "1.", "[", ")", ";", ".", "..", "[1..2]", "@3", "[@X]"];
/// Counts that a text for ceilings has are near one of these.
const NEAR: &[usize] = &[0, 1, 3, 63, 64, 65, 255, 256];
/// Numbers that are above every ceiling, or no counts at all.
const FAR: &[&str] = &["257", "1000", "65536", "65600", "1.0", "4294967295", "4294967296", "4294967360", "18446744073709551617"];
/// Statements that resolve in a model with parameters CL, V, KA and covariates WT and SEX; some do not.
const IN_MODEL: &[&str] = &[
    "LET(S,[CL,V])",
    "LET(D,WT)",
    "IIV(@PK,EXP)",
    "IIV(@S,*)",
    "IOV?(@IIV,[EXP,ADD])",
    "COVARIATE?(@PK,@CONTINUOUS,*)",
    "COVARIATE(CL,WT,lin)",
    "COVARIATE(V,WT,[exp,pow])",
    "COVARIATE?(V,@D,[lin,pow],+)",
    "COVARIATE?(*,SEX,*)",
    "COVARIANCE(IIV,CL)",
    "COVARIANCE(IIV,[CL,V])",
    "ALLOMETRY(WT,70)",
    "ALLOMETRY(WT,300)",
    "ABSORPTION(*)",
    "LAGTIME(ON)",
    "IIV(CL,EXP)",
    "COVARIATE(CL,SEX,lin)",
    "IIV(256,EXP)",
];
/// The features that a text of the PK-only profile has once at most, and those that it has not.
const FIVE: &[&str] = &["ABSORPTION", "ELIMINATION", "PERIPHERALS", "TRANSITS", "LAGTIME"];
const OUTSIDE: &[&str] = &["DIRECTEFFECT", "EFFECTCOMP", "INDIRECTEFFECT", "METABOLITE"];
/// Counts that a text for the profile has are near one of these.
const NEAR_TEN: &[usize] = &[2, 3, 4, 8, 9, 9, 10, 10, 10, 10, 10, 10, 11, 11, 12, 64, 66, 256];
/// LETs that stand in front of others: numbers above 10 and the words of features are names there.
const LETS: &[&str] = &["LET(S,[CL,V])", "LET(D,WT)", "LET(METABOLITE,[11,CL])", "LET(Transits,12)", "LET(n,KA)"];
/// Every byte that means something, and some that do not.
const MARKS: &[u8] = b"()[],.*+?@;#\n\r\t $%-_aZnN09";

/// What a text is made to try.
#[derive(Debug, Clone, Copy, PartialEq, Eq, PartialOrd, Ord)]
pub enum Kind {
    Good,
    Mixed,
    Damaged,
    Tokens,
    Bytes,
    Joined,
    Entries,
    Statements,
    Length,
    LongBytes,
}

impl Kind {
    pub fn words(self) -> &'static str {
        match self {
            Kind::Good => "statements without a fault",
            Kind::Mixed => "statements, some with a fault",
            Kind::Damaged => "the same, a byte put in, taken out or changed",
            Kind::Tokens => "tokens in any order",
            Kind::Bytes => "random bytes, 0 to 40 of them",
            Kind::Joined => "20 to 120 statements",
            Kind::Entries => "an array of 63 to 66 entries",
            Kind::Statements => "255 to 258 statements",
            Kind::Length => "16,383 to 16,386 bytes of statements, blanks and comments",
            Kind::LongBytes => "16,383 to 16,386 random bytes",
        }
    }
}

/// One text after the other, the same for the same seed.
pub struct Texts {
    r: Random,
    /// Whether statements may have faults.
    faulty: bool,
    /// Whether counts are near ceilings, and near which one in this text.
    ceilings: bool,
    near: usize,
}

impl Texts {
    pub fn new(seed: u64) -> Texts {
        Texts { r: Random::new(seed), faulty: true, ceilings: false, near: 0 }
    }

    /// Texts with counts near ceilings, most of them near one, and ranges in every place for an argument.
    pub fn near_ceilings(seed: u64) -> Texts {
        Texts { ceilings: true, ..Texts::new(seed) }
    }

    pub fn text(&mut self) -> (Kind, Vec<u8>) {
        if self.ceilings {
            self.near = self.r.pick(NEAR);
        }
        let kind = match self.r.below(10000) {
            0..=2499 => Kind::Good,
            2500..=5999 => Kind::Mixed,
            6000..=7999 => Kind::Damaged,
            8000..=8799 => Kind::Tokens,
            8800..=9499 => Kind::Bytes,
            9500..=9699 => Kind::Joined,
            9700..=9899 => Kind::Entries,
            9900..=9949 => Kind::Statements,
            9950..=9979 => Kind::Length,
            _ => Kind::LongBytes,
        };
        self.faulty = !matches!(kind, Kind::Good | Kind::Joined | Kind::Entries | Kind::Statements | Kind::Length);
        (kind, self.of(kind))
    }

    /// A text with counts that resolves in the model of `IN_MODEL`, or nearly.
    pub fn resolvable(&mut self) -> Vec<u8> {
        self.near = self.r.pick(NEAR);
        self.faulty = self.r.permille(200);
        let statement = |texts: &mut Texts| match texts.r.below(5) {
            0 | 1 => texts.r.pick(IN_MODEL).to_string(),
            2 => {
                let arguments = texts.arguments("TRANSITS", false);
                texts.written("TRANSITS", false, arguments)
            }
            _ => {
                let arguments = texts.arguments("PERIPHERALS", false);
                texts.written("PERIPHERALS", false, arguments)
            }
        };
        let n = self.r.between(1, 6);
        (0..n).map(|_| statement(self) + self.separator()).collect::<String>().into_bytes()
    }

    /// A text near the edges of the PK-only profile: LETs in front, then some of the five features, and others in between that resolve in the
    /// model of `IN_MODEL`; of the five one may stand again, a feature may be outside, and counts are near 10. One in twelve is any text, and
    /// one in a hundred has so many statements that the index of one may be the last that there is.
    pub fn profiled(&mut self) -> Vec<u8> {
        if self.r.permille(80) {
            return self.text().1;
        }
        self.near = self.r.pick(NEAR_TEN);
        self.faulty = self.r.permille(50);
        let mut statements: Vec<String> = Vec::new();
        for keyword in FIVE {
            if self.r.permille(450) {
                self.put_anywhere(&mut statements, keyword);
            }
        }
        if self.r.permille(250) {
            let keyword = self.r.pick(FIVE);
            for _ in 0..self.r.pick(&[1, 2, 2, 3]) {
                self.put_anywhere(&mut statements, keyword);
            }
        }
        if self.r.permille(120) {
            let keyword = self.r.pick(OUTSIDE);
            self.put_anywhere(&mut statements, keyword);
        }
        let others = if self.r.permille(10) { self.r.between(240, 255) } else { self.r.below(4) };
        for _ in 0..others {
            let at = self.r.below(statements.len() + 1);
            let other =
                self.r.pick(&["IIV(CL,EXP)", "IIV(@PK,[EXP,ADD])", "IOV?(@IIV,EXP)", "COVARIATE?(V,WT,[lin,pow])", "ALLOMETRY(WT,70)", ""]);
            statements.insert(at, if other.is_empty() { self.r.pick(IN_MODEL) } else { other }.to_string());
        }
        if self.r.permille(400) {
            let first = self.r.below(LETS.len());
            let lets = (0..self.r.between(1, 3)).map(|n| LETS[(first + n) % LETS.len()].to_string());
            statements.splice(0..0, lets);
        }
        let text: String = statements.into_iter().map(|statement| statement + self.separator()).collect();
        if self.r.permille(20) {
            self.damaged(text.into_bytes())
        } else {
            text.into_bytes()
        }
    }

    fn put_anywhere(&mut self, statements: &mut Vec<String>, keyword: &str) {
        let arguments = self.arguments(keyword, false);
        let word = self.case(keyword);
        let at = self.r.below(statements.len() + 1);
        statements.insert(at, self.written(&word, false, arguments));
    }

    fn of(&mut self, kind: Kind) -> Vec<u8> {
        match kind {
            Kind::Good => {
                let n = self.r.pick(&[0, 1, 1, 1, 2, 3]);
                self.statements(n)
            }
            Kind::Mixed => {
                let n = self.r.pick(&[1, 1, 1, 2, 3]);
                self.statements(n)
            }
            Kind::Damaged => {
                self.faulty = self.r.permille(300);
                let n = self.r.pick(&[1, 1, 1, 2, 3]);
                let text = self.statements(n);
                self.damaged(text)
            }
            Kind::Tokens => {
                let n = self.r.below(20);
                (0..n).flat_map(|_| self.token()).collect()
            }
            Kind::Bytes => {
                let n = self.r.below(41);
                self.bytes(n)
            }
            Kind::Joined => {
                let n = self.r.between(20, 120);
                let text = self.statements(n);
                if self.r.permille(300) {
                    self.damaged(text)
                } else {
                    text
                }
            }
            Kind::Entries => {
                let statement = self.long_array();
                let mut text = if self.r.permille(300) { self.statements(1) } else { Vec::new() };
                text.extend(statement.bytes());
                if self.r.permille(200) {
                    self.damaged(text)
                } else {
                    text
                }
            }
            Kind::Statements => self.many(),
            Kind::Length => {
                let n = self.r.between(16383, 16386);
                self.of_length(n)
            }
            Kind::LongBytes => {
                let n = self.r.between(16383, 16386);
                self.bytes(n)
            }
        }
    }

    fn case(&mut self, word: &str) -> String {
        match self.r.below(4) {
            0 => word.to_string(),
            1 => word.to_ascii_lowercase(),
            2 => word.to_ascii_uppercase(),
            _ => word.chars().map(|c| if self.r.permille(500) { c.to_ascii_lowercase() } else { c.to_ascii_uppercase() }).collect(),
        }
    }

    fn blank(&mut self) -> &'static str {
        self.r.pick(&["", "", "", "", "", "", "", "", " ", "\t", "\r", "  "])
    }

    fn array(&mut self, n: usize, mut entry: impl FnMut(&mut Texts) -> String) -> String {
        let entries: Vec<String> = (0..n).map(|_| format!("{}{}{}", self.blank(), entry(self), self.blank())).collect();
        format!("[{}]", entries.join(","))
    }

    fn short_array(&mut self, entry: impl FnMut(&mut Texts) -> String) -> String {
        let n = if self.faulty && self.r.permille(10) { self.r.between(63, 65) } else { self.r.between(1, 4) };
        self.array(n, entry)
    }

    fn modes(&mut self, family: &'static [&'static str]) -> String {
        let one = |texts: &mut Texts| {
            let label = texts.r.pick(family);
            texts.case(label)
        };
        match self.r.below(100) {
            0..=14 => "*".into(),
            15..=54 => one(self),
            _ => self.short_array(one),
        }
    }

    /// As `modes`, never `*`: a mandatory COVARIATE refuses it.
    fn explicit(&mut self, family: &'static [&'static str]) -> String {
        loop {
            let modes = self.modes(family);
            if modes != "*" {
                return modes;
            }
        }
    }

    fn name(&mut self) -> String {
        self.r.pick(NAMES).into()
    }

    /// A name that may stand alone: no number.
    fn word(&mut self) -> String {
        self.r.pick(if self.faulty { NAMES } else { WORDS }).into()
    }

    fn names(&mut self) -> String {
        if self.r.permille(600) {
            self.name()
        } else {
            self.short_array(Texts::name)
        }
    }

    fn operand(&mut self) -> String {
        match self.r.below(100) {
            0..=14 => "*".into(),
            15..=39 => format!("@{}{}", self.blank(), self.r.pick(&["PK", "IIV", "CONTINUOUS", "x"])),
            _ => self.names(),
        }
    }

    fn number(&mut self) -> String {
        if self.ceilings {
            return if self.faulty && self.r.permille(60) { self.r.pick(FAR).into() } else { self.near_number() };
        }
        self.r.pick(if self.faulty { NUMBERS } else { SMALL }).into()
    }

    /// Mostly what the text is near to, or one less; where there may be faults, one more, or what another text is near to.
    fn near_count(&mut self) -> usize {
        match self.r.below(100) {
            0..=39 => self.near,
            40..=54 => self.near.saturating_sub(1),
            55..=69 => self.r.below(self.near + 1),
            70..=84 if self.faulty => self.near + 1,
            85..=99 if self.faulty => self.r.pick(NEAR) + self.r.below(2),
            _ => self.r.below(self.near + 1),
        }
    }

    fn near_number(&mut self) -> String {
        let count = self.near_count();
        match self.r.below(12) {
            0 => format!("{count:03}"),
            1 => format!("{count:013}"),
            _ => count.to_string(),
        }
    }

    /// A range near a ceiling; one in ten may run backwards, where there may be faults.
    fn near_range(&mut self) -> String {
        let last = self.near_count();
        let first = if self.r.permille(400) { last } else { self.r.below(last + 1) };
        let (first, last) =
            if self.faulty && self.r.permille(100) { (self.number(), self.number()) } else { (first.to_string(), last.to_string()) };
        format!("{first}{}..{}{last}", self.blank(), self.blank())
    }

    fn counts(&mut self) -> String {
        match self.r.below(10) {
            0..=3 => self.number(),
            4..=6 if self.ceilings => self.near_range(),
            4..=6 if self.faulty => format!("{}{}..{}{}", self.number(), self.blank(), self.blank(), self.number()),
            4..=6 => {
                let first = self.r.below(65);
                let last = self.r.between(first, 64);
                format!("{first}{}..{}{last:03}", self.blank(), self.blank())
            }
            _ => self.short_array(|texts| if texts.faulty && texts.r.permille(100) { "x".into() } else { texts.number() }),
        }
    }

    fn arguments(&mut self, keyword: &str, optional: bool) -> Vec<String> {
        let more = self.r.permille(400);
        let mut arguments = match keyword {
            "ABSORPTION" => vec![self.modes(ABSORPTION)],
            "ELIMINATION" => vec![self.modes(ELIMINATION)],
            "PERIPHERALS" => {
                let counts = self.counts();
                if more {
                    vec![counts, self.modes(PERIPHERAL)]
                } else {
                    vec![counts]
                }
            }
            "TRANSITS" => match self.r.below(3) {
                0 if self.faulty && more => vec!["n".into(), self.modes(DEPOT)],
                0 => vec![self.r.pick(&["N", "n"]).into()],
                _ if more => vec![self.counts(), self.modes(DEPOT)],
                _ => vec![self.counts()],
            },
            "LAGTIME" => vec![self.modes(LAGTIME)],
            "COVARIATE" => {
                let effects = if self.faulty || optional { self.modes(EFFECT) } else { self.explicit(EFFECT) };
                let mut arguments = vec![self.operand(), self.operand(), effects];
                if more {
                    arguments.push(self.r.pick(&["+", "*"]).into());
                }
                arguments
            }
            "ALLOMETRY" => {
                let name = self.word();
                if more {
                    vec![name, self.r.pick(NUMBERS).into()]
                } else {
                    vec![name]
                }
            }
            "DIRECTEFFECT" | "EFFECTCOMP" => vec![self.modes(PD)],
            "INDIRECTEFFECT" => vec![self.modes(PD), self.modes(PRODUCTION)],
            "METABOLITE" => vec![self.modes(METABOLITE)],
            "IIV" | "IOV" => vec![self.operand(), self.modes(VARIABILITY)],
            "COVARIANCE" => vec![self.modes(LEVEL), self.operand()],
            _ => vec![self.word(), self.names()],
        };
        if self.faulty && self.r.permille(250) {
            let at = self.r.below(arguments.len() + 1);
            let odd = self.r.pick(ODD).to_string();
            if self.r.permille(500) && at < arguments.len() {
                arguments[at] = odd;
            } else {
                arguments.insert(at, odd);
            }
        }
        if self.ceilings && self.faulty && self.r.permille(200) {
            let at = self.r.below(arguments.len());
            arguments[at] = self.near_range();
        }
        if self.faulty && self.r.permille(50) {
            arguments.pop();
        }
        arguments
    }

    fn statement(&mut self) -> String {
        let keyword = if self.ceilings && self.r.permille(500) { self.r.pick(WITH_COUNTS) } else { self.r.pick(KEYWORDS) };
        let may = OPTIONAL.contains(&keyword);
        let optional = self.r.permille(if may {
            400
        } else if self.faulty {
            50
        } else {
            0
        });
        let word =
            if self.faulty && self.r.permille(40) { self.r.pick(&["FOO", "LE", "IIVX", "COV-1"]).into() } else { self.case(keyword) };
        let arguments = self.arguments(keyword, optional);
        self.written(&word, optional, arguments)
    }

    fn written(&mut self, word: &str, optional: bool, arguments: Vec<String>) -> String {
        let arguments: Vec<String> = arguments.iter().map(|argument| format!("{}{argument}{}", self.blank(), self.blank())).collect();
        let mark = if optional { "?" } else { "" };
        let (a, b, c, d) = (self.blank(), self.blank(), self.blank(), self.blank());
        format!("{a}{word}{b}{mark}{c}({}){d}", arguments.join(","))
    }

    fn separator(&mut self) -> &'static str {
        if self.faulty && self.r.permille(50) {
            return " ";
        }
        self.r.pick(&[";", "\n", ";", "\n", ";", "\n", ";;", "\n;", "# cé $ \r ok\n", " # ;\n\n"])
    }

    fn statements(&mut self, n: usize) -> Vec<u8> {
        let mut text = String::new();
        for _ in 0..n {
            text += &self.statement();
            text += self.separator();
        }
        if self.r.permille(50) {
            text += "# the end é";
        }
        text.into_bytes()
    }

    fn damaged(&mut self, mut text: Vec<u8>) -> Vec<u8> {
        for _ in 0..self.r.pick(&[1, 1, 1, 2, 3]) {
            let at = self.r.below(text.len() + 1);
            let change = self.r.below(4);
            if change < 3 && at < text.len() {
                text.remove(at);
            }
            if change > 0 {
                text.insert(at, self.r.pick(MARKS));
            }
        }
        text
    }

    fn token(&mut self) -> Vec<u8> {
        match self.r.below(10) {
            0..=1 => self.r.pick(KEYWORDS).into(),
            2 => self.name().into(),
            3 => self.r.pick(NUMBERS).into(),
            4 => self.r.pick(&["..", ".", "1.", "# x\n", "?(", "),", "])"]).into(),
            _ => vec![self.r.pick(MARKS)],
        }
    }

    /// Bytes of one sort or another, so that not every text ends at its first.
    fn bytes(&mut self, n: usize) -> Vec<u8> {
        let sort = self.r.below(5);
        let mut bytes: Vec<u8> = (0..n)
            .map(|_| match sort {
                0 => self.r.bits() as u8,
                1 => self.r.between(32, 126) as u8,
                2 => self.r.pick(b" \t\r\n;"),
                3 => self.r.pick(b"abcXYZ_-019 ;\n"),
                _ => self.r.pick(MARKS),
            })
            .collect();
        // All kinds of bytes in a comment.
        if sort == 0 && n > 0 && self.r.permille(500) {
            bytes[0] = b'#';
            bytes.iter_mut().filter(|byte| **byte == b'\n').for_each(|byte| *byte = 128);
        }
        bytes
    }

    fn long_array(&mut self) -> String {
        let n = self.r.between(63, 66);
        let names = |texts: &mut Texts| texts.array(n, Texts::name);
        let modes = |texts: &mut Texts, family: &'static [&'static str]| {
            texts.array(n, |texts| {
                let label = texts.r.pick(family);
                texts.case(label)
            })
        };
        let (word, arguments) = match self.r.below(10) {
            0 => ("LET", vec!["A".into(), names(self)]),
            1 => ("COVARIATE", vec![names(self), names(self), "lin".into()]),
            2 => ("COVARIATE", vec!["*".into(), names(self), modes(self, EFFECT)]),
            3 => ("PERIPHERALS", vec![self.array(n, Texts::number)]),
            4 => ("TRANSITS", vec![self.array(n, Texts::number), modes(self, DEPOT)]),
            5 => ("ABSORPTION", vec![modes(self, ABSORPTION)]),
            6 => ("INDIRECTEFFECT", vec![modes(self, PD), modes(self, PRODUCTION)]),
            7 => ("IIV", vec![names(self), modes(self, VARIABILITY)]),
            8 => ("COVARIANCE", vec![modes(self, LEVEL), names(self)]),
            // A fault as well: the array comes first.
            _ => ("FOO", vec![names(self)]),
        };
        self.written(word, false, arguments)
    }

    /// Statements around their limit, then something that may be one more.
    fn many(&mut self) -> Vec<u8> {
        let n = self.r.between(255, 258);
        let mut text = String::new();
        for _ in 0..n {
            loop {
                let statement = self.statement();
                // 258 of these with their separators stay within a text.
                if statement.len() <= 48 {
                    text += &statement;
                    break;
                }
            }
            text += self.r.pick(&[";", "\n", ";\r\n", ";;"]);
        }
        text += self.r.pick(&["", "", "", " \n;\t", "# é\n", ")", "$", "LAGTIME(", "X", "\n1", "[", ";;;#"]);
        text.into_bytes()
    }

    /// Statements that fill a text to a length; a comment or blanks take the rest.
    fn of_length(&mut self, n: usize) -> Vec<u8> {
        let mut text = Vec::new();
        let most = self.r.pick(&[0, 1, 100, 250]);
        for _ in 0..most {
            let statement = self.statement();
            if text.len() + statement.len() + 1 > n - 200 {
                break;
            }
            text.extend(statement.bytes());
            text.extend(b";");
        }
        let filler = self.r.pick(b" #;\n");
        let first = text.len();
        text.resize(n, if filler == b'#' { b'$' } else { filler });
        if filler == b'#' {
            text[first] = b'#';
        } else if self.r.permille(300) {
            text[n - 1] = self.r.pick(b"$)A;");
        } else if self.r.permille(500) {
            text[n - 11..].copy_from_slice(b"LAGTIME(ON)");
        }
        text
    }
}

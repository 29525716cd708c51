//! The bars: each a limit, and the worst figure that was measured against it.

#[derive(Clone, Copy, PartialEq, Eq)]
pub enum Bar {
    TypicalDefault,
    Typical,
    Large,
    Worst,
    Walk,
    BuiltWalk,
    ZigzagWalk,
    Ratio,
    Copied,
    CountedTypical,
    CountedLongest,
    ClinicPlan,
    DensePlan,
    NestedPlan,
    Stack,
    ListingStack,
    ReadingStack,
}

const BARS: [(Bar, &str, f64); 17] = [
    (Bar::TypicalDefault, "typical (2,1), memsets", 8.0),
    (Bar::Typical, "typical, any class, memsets", 30.0),
    (Bar::Large, "512-state books, memsets", 200.0),
    (Bar::Worst, "worst books found, memsets", 4000.0),
    (Bar::Walk, "walk of 40 names over 512 states, memsets", 12.0),
    (Bar::BuiltWalk, "walk of 40 to rewriting, as built, ratio", 1.5),
    (Bar::ZigzagWalk, "walk of 40 to rewriting, zigzag, ratio", 3.0),
    (Bar::Ratio, "library to maps, ratio", 1.2),
    (Bar::Copied, "days copied sixfold to once, library, ratio", 4.0),
    (Bar::CountedTypical, "typical, with counts to without, ratio", 1.25),
    (Bar::CountedLongest, "256 rows of 40, with counts to without", 1.5),
    (Bar::ClinicPlan, "plan of a clinic, library to expat, ratio", 0.4),
    (Bar::DensePlan, "tag-dense plan, library to expat, ratio", 0.75),
    (Bar::NestedPlan, "nested to tag-dense plan, library, ratio", 3.0),
    (Bar::Stack, "stack of a build, a rewriting or a walk, KiB", 32.0),
    (Bar::ListingStack, "stack of a listing, KiB", 40.0),
    (Bar::ReadingStack, "stack of reading a plan, KiB", 4.0),
];

/// The worst figure for each bar, and of what it is; and the bars that nothing can be measured against here, with the reason.
pub struct Bars {
    worst: Vec<(f64, String)>,
    left_out: Vec<(Bar, &'static str)>,
}

impl Bars {
    pub fn new() -> Bars {
        Bars { worst: vec![(0.0, "nothing".to_string()); BARS.len()], left_out: Vec::new() }
    }

    pub fn take(&mut self, bar: Bar, figure: f64, of: &str) {
        for ((known, _, _), worst) in BARS.iter().zip(&mut self.worst) {
            if *known == bar && figure > worst.0 {
                *worst = (figure, of.to_string());
            }
        }
    }

    pub fn leave_out(&mut self, bar: Bar, why: &'static str) {
        self.left_out.push((bar, why));
    }

    /// Prints every bar; true where all are met but those left out. Another that nothing was measured against is missed.
    pub fn show(&self) -> bool {
        println!("\n{:44}{:>8}{:>10}  {:8}of", "bar", "limit", "worst", "");
        let mut all_met = true;
        for ((bar, name, limit), (figure, of)) in BARS.iter().zip(&self.worst) {
            if let Some((_, why)) = self.left_out.iter().find(|(left_out, _)| left_out == bar) {
                println!("{name:44}{limit:>8.2}{:>10}  {:8}{why}", "-", "-");
                continue;
            }
            let met = *figure > 0.0 && figure <= limit;
            let verdict = if met { "met" } else { "MISSED" };
            println!("{name:44}{limit:>8.2}{figure:>10.2}  {verdict:8}{of}");
            all_met &= met;
        }
        all_met
    }
}

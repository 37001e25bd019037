//! Which rules a call runs by: document 01's, or those with one mistake put in. The mistakes show
//! that a differential run can fail.

/// One mistake each, a line or two where it is asked for.
#[derive(Clone, Copy, Debug, PartialEq, Eq)]
pub enum Mutant {
    /// An unknown table drops its container.
    UnknownDrops,
    /// LIKE's upper bound is compared by < and not by ≤.
    StrictUpper,
    /// Increment steps over the surrogates and does not go back.
    OverSurrogates,
    /// Minus -2^63 is taken to be -2^63.
    MinimumWraps,
    /// A list exactly as long as the limit is unhandled.
    ShortLimit,
    /// A flip negates the literal and leaves the operator.
    FlipKeepsOrder,
    /// The second side of an AND whose first is false is not built.
    LazyAnd,
    /// The rows entry keeps the column that asked first.
    RowsKeepColumn,
    /// Guarantees are looked for below OR too.
    GuaranteeUnderOr,
    /// NotIn drops on answer 2, as In does.
    NotInDropsOnTwo,
    /// Depth 33 is accepted.
    DepthOneMore,
    /// An absent cell may have a rest.
    AbsentWithRest,
    /// Blanks are read signed.
    SignedBlanks,
}

impl Mutant {
    pub const ALL: [Mutant; 13] = [
        Mutant::UnknownDrops,
        Mutant::StrictUpper,
        Mutant::OverSurrogates,
        Mutant::MinimumWraps,
        Mutant::ShortLimit,
        Mutant::FlipKeepsOrder,
        Mutant::LazyAnd,
        Mutant::RowsKeepColumn,
        Mutant::GuaranteeUnderOr,
        Mutant::NotInDropsOnTwo,
        Mutant::DepthOneMore,
        Mutant::AbsentWithRest,
        Mutant::SignedBlanks,
    ];
}

/// Document 01's rules, but for at most one mistake.
#[derive(Clone, Copy, Debug, Default)]
pub struct Rules {
    mutant: Option<Mutant>,
}

impl Rules {
    pub const SOUND: Rules = Rules { mutant: None };

    pub fn with(mutant: Mutant) -> Rules {
        Rules { mutant: Some(mutant) }
    }

    /// Is this mistake put in?
    pub fn has(&self, mutant: Mutant) -> bool {
        self.mutant == Some(mutant)
    }
}

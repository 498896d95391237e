//! Wrong translators, to try the watcher of runs on: the reference's with one rule left out or one table wrong.

#[derive(Clone, Copy, PartialEq, Eq, Debug)]
pub enum Slip {
    /// The translator of document 01.
    None,
    /// "Protected at a point: ... the return registers of enclosing procedures" left out.
    ReturnsFree,
    /// A base is protected in its own block, but not in blocks and procedures inside.
    BasesFreeInside,
    /// "nested procedures ... included" left out of what a call writes. Nothing can go wrong by it, only too much is accepted:
    /// a nested procedure is come to by calls alone, and these still count.
    NestedForgotten,
    /// "through calls too" left out of what a call writes.
    CallsForgotten,
    /// Base declarations left out of what a call writes: a sibling procedure may load the caller's base.
    BasesForgotten,
    /// Every literal is looked for four bytes too far.
    LiteralsFourOff,
    /// Labels are found past the edge of a procedure body.
    GotoOutOfBody,
    /// GOTO finds an outer label that an inner, later one hides.
    GotoToOuter,
    /// `<` negated as mask 10, so that state 3 is misread.
    LessAsTen,
    /// "IC, LA and LTR write the first, so the protected rule counts it" left out.
    FunctionsForgotten,
    /// "The case register counts as written" left out. Nothing can go wrong by it, only too much is accepted: what is protected holds a
    /// base, 4,096 or more, or a link, which is negative, and a CASE leaves both.
    CasesForgotten,
    /// The branch table is entered one entry too far, as if "Numbering starts at 1" said 0.
    CaseFromZero,
    /// "LTR, branch mask 12" as mask 4, so that a case register of 0 goes on to the branch table.
    CaseOfZero,
}

/// All that are wrong.
pub const SLIPS: [Slip; 13] = [
    Slip::ReturnsFree,
    Slip::BasesFreeInside,
    Slip::NestedForgotten,
    Slip::CallsForgotten,
    Slip::BasesForgotten,
    Slip::LiteralsFourOff,
    Slip::GotoOutOfBody,
    Slip::GotoToOuter,
    Slip::LessAsTen,
    Slip::FunctionsForgotten,
    Slip::CasesForgotten,
    Slip::CaseFromZero,
    Slip::CaseOfZero,
];

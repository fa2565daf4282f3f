//! 01's "Ways this has been got wrong", as switches: the comparison must find each of them out.
#![forbid(unsafe_code)]

#[derive(Clone, Copy, PartialEq, Eq, Debug)]
pub enum Mistake {
    /// Until satisfied by waiting for ever.
    UntilWaits,
    /// Release with b needed only before the releasing moment.
    ReleaseOnlyBefore,
    /// The closing edge of the loop not tested.
    ClosingEdgeUntested,
    /// X at the last entry read as false, not at entry k.
    NextFalseAtLast,
    /// No U, F, G, R or W in the rule: no endless run counts.
    NoPromiseNoRun,
    /// The inner search begun on entering a place instead of on leaving it.
    InnerOnEntering,
}

//! Holds the place of a type that the trait `Guidance` names; the plane guidance has no wind.

pub mod wind {
    #[derive(Clone, Copy, Debug, PartialEq)]
    pub struct WindEstimate;
}

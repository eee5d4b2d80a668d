//! What is asked of a trial of the services.

pub struct Options {
    /// How many texts, records, pairs or lists are made; for listing, how many calls, two for each record.
    pub cases: u64,
    /// What they are made from.
    pub seed: u64,
    /// Whether nothing else is tried.
    pub only_made: bool,
    /// The one service to try, or all.
    pub service: Option<String>,
}

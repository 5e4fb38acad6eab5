//! The kinds of work that are measured, as `tool_bench` has them.

/// One kind of work.
#[derive(Clone, Copy, PartialEq, Eq)]
pub enum Work {
    Hit,
    HitMask,
    RandomHit,
    Miss,
    MissMask,
    SmallHit,
    SmallMiss,
    Hostile,
    Insert,
    Insert0,
    Insert0Mask,
    RandomInsert0,
    Worst,
    Remove,
    RemoveMask,
    RandomRemove,
    Iterate,
    Retain,
    GetMut,
    SmallUpdate,
    SmallCycle,
    Alter,
    Entry,
    Contend,
    Hold,
    Read,
    ReadMask,
    Exchange,
    ExchangeMask,
    Grow,
    GrowMask,
    Memory,
}

/// How the keys of a work are made, and hashed.
pub enum Form {
    Mixed,
    Masked,
    Random,
    Zero,
}

impl Work {
    pub fn of_name(name: &str) -> Option<Work> {
        Some(match name {
            "hit" => Work::Hit,
            "hit-mask" => Work::HitMask,
            "random-hit" => Work::RandomHit,
            "caller-hit" => Work::Hit,
            "miss" => Work::Miss,
            "miss-mask" => Work::MissMask,
            "small-hit" => Work::SmallHit,
            "small-miss" => Work::SmallMiss,
            "hostile" => Work::Hostile,
            "insert" => Work::Insert,
            "insert0" => Work::Insert0,
            "insert0-mask" => Work::Insert0Mask,
            "random-insert0" => Work::RandomInsert0,
            "worst" => Work::Worst,
            "remove" => Work::Remove,
            "remove-mask" => Work::RemoveMask,
            "random-remove" => Work::RandomRemove,
            "iterate" => Work::Iterate,
            "retain" => Work::Retain,
            "get-mut" => Work::GetMut,
            "small-update" => Work::SmallUpdate,
            "small-cycle" => Work::SmallCycle,
            "alter" => Work::Alter,
            "entry" => Work::Entry,
            "contend" => Work::Contend,
            "hold" => Work::Hold,
            "read" => Work::Read,
            "read-mask" => Work::ReadMask,
            "exchange" => Work::Exchange,
            "exchange-mask" => Work::ExchangeMask,
            "grow" => Work::Grow,
            "grow-mask" => Work::GrowMask,
            "memory" => Work::Memory,
            _ => return None,
        })
    }

    pub fn form(self) -> Form {
        match self {
            Work::HitMask | Work::MissMask | Work::Insert0Mask | Work::RemoveMask => Form::Masked,
            Work::ReadMask | Work::ExchangeMask | Work::GrowMask => Form::Masked,
            Work::RandomHit | Work::RandomInsert0 | Work::RandomRemove => Form::Random,
            Work::Hostile => Form::Zero,
            _ => Form::Mixed,
        }
    }

    /// Of how many pairs the work takes its numbers.
    pub fn pairs(self) -> usize {
        match (self, self.form()) {
            (_, Form::Masked) => MASKED,
            (Work::SmallHit | Work::SmallMiss | Work::SmallUpdate | Work::SmallCycle, _) => SMALL,
            (Work::Hostile, _) => 2 * SMALL,
            (Work::Contend | Work::Hold, _) => SMALL,
            _ => PAIRS,
        }
    }

    /// How many pairs there is room for when the map is made.
    pub fn room(self) -> usize {
        match self {
            Work::Insert0 | Work::Insert0Mask | Work::RandomInsert0 | Work::Worst => 0,
            Work::Grow | Work::GrowMask | Work::Memory => 0,
            Work::Entry => 2 * PAIRS,
            _ => self.pairs(),
        }
    }

    /// How many pairs are there before the time is taken.
    pub fn filled(self) -> usize {
        match self {
            Work::Insert => 0,
            Work::Entry => PAIRS,
            Work::Exchange | Work::ExchangeMask => self.pairs() / 2,
            _ => self.room(),
        }
    }
}

pub const PAIRS: usize = 1_000_000;
pub const MASKED: usize = 1 << 20;
pub const SMALL: usize = 1_000;
pub const STEPS: usize = 4_000_000;
pub const HOLDS: usize = 200_000;

/// The first number of the absent keys.
pub const ABSENT: u64 = 1 << 40;

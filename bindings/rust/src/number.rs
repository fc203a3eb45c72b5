//! Who serves, who asks, and where: numbers, each of a type of its own, so that none stands for
//! another. One that the policy lacks is refused by each call, however large it is.

/// Who serves: a number below that of [`Core::workers`](crate::Core::workers), or of
/// [`Bank::workers`](crate::Bank::workers).
#[derive(Clone, Copy, Debug, PartialEq, Eq, Hash, PartialOrd, Ord)]
pub struct Worker(pub u32);

/// Who asks, and whose a block is.
#[derive(Clone, Copy, Debug, PartialEq, Eq, Hash, PartialOrd, Ord)]
pub struct Tenant(pub u32);

/// Where a tenant's blocks may stand.
#[derive(Clone, Copy, Debug, PartialEq, Eq, Hash, PartialOrd, Ord)]
pub struct Arena(pub u32);

/// A part of an arena that one worker holds at a time.
#[derive(Clone, Copy, Debug, PartialEq, Eq, Hash, PartialOrd, Ord)]
pub struct Segment(pub u32);

/// A core of a bank: a number below that of [`Bank::cores`](crate::Bank::cores).
#[derive(Clone, Copy, Debug, PartialEq, Eq, Hash, PartialOrd, Ord)]
pub struct CoreNumber(pub u32);

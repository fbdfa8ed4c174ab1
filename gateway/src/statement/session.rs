//! SET, RESET and SHOW of settings, and the modes of transactions.

/// How far a transaction is kept from others.
#[derive(Clone, Copy, Debug, PartialEq, Eq)]
pub enum Isolation {
    /// READ UNCOMMITTED, which PostgreSQL serves as READ COMMITTED.
    ReadUncommitted,
    /// READ COMMITTED.
    ReadCommitted,
    /// REPEATABLE READ.
    RepeatableRead,
    /// SERIALIZABLE.
    Serializable,
}

impl Isolation {
    /// Returns its words in lower case, as SHOW prints them.
    pub fn words(self) -> &'static str {
        match self {
            Isolation::ReadUncommitted => "read uncommitted",
            Isolation::ReadCommitted => "read committed",
            Isolation::RepeatableRead => "repeatable read",
            Isolation::Serializable => "serializable",
        }
    }
}

/// The modes of a transaction, as far as they are told.
#[derive(Clone, Copy, Debug, Default, PartialEq, Eq)]
pub struct Modes {
    /// READ ONLY or READ WRITE.
    pub read_only: Option<bool>,
    /// ISOLATION LEVEL.
    pub isolation: Option<Isolation>,
}

/// A setting that is set or reset.
#[derive(Clone, Debug, PartialEq, Eq)]
pub struct Setting {
    /// Its name as it is written.
    pub name: String,
    /// Its value. None: its default.
    pub value: Option<String>,
    /// LOCAL: until the transaction ends.
    pub local: bool,
    /// RESET, which has another tag.
    pub reset: bool,
}

//! The two kinds of store. They differ only where a record replaces another
//! that takes as many chunks.

use crate::subject;

type Store = fn(&[u8], &mut [u8], &[u8], &[u8]) -> u32;

#[derive(Clone, Copy, Debug, PartialEq)]
pub enum Kind {
    /// The default: as many chunks stay where they are.
    OnTheSpot,
    Tight,
}

/// The calls that store a record.
#[derive(Clone, Copy)]
pub enum Call {
    Store(Kind),
    SetDelay,
}

impl Call {
    /// A set is a store of the default kind.
    pub fn kind(self) -> Kind {
        match self {
            Call::Store(kind) => kind,
            Call::SetDelay => Kind::OnTheSpot,
        }
    }
}

impl Kind {
    pub fn other(self) -> Kind {
        match self {
            Kind::OnTheSpot => Kind::Tight,
            Kind::Tight => Kind::OnTheSpot,
        }
    }

    pub fn name(self) -> &'static str {
        match self {
            Kind::OnTheSpot => "store",
            Kind::Tight => "store_tight",
        }
    }

    /// The call of the reference and that of the subject.
    pub fn calls(self) -> (Store, Store) {
        match self {
            Kind::OnTheSpot => (reference::store, subject::store),
            Kind::Tight => (reference::store_tight, subject::store_tight),
        }
    }
}

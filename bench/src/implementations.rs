//! The implementations of first look that are compared.

use crate::input::FirstLook;
use crate::{plain, tricks};

pub struct Implementation {
    pub name: &'static str,
    pub first_look: FirstLook,
}

/// The gateway comes last, if it is linked.
pub const ALL: &[Implementation] = &[
    Implementation {
        name: "plain",
        first_look: plain::first_look,
    },
    Implementation {
        name: "tricks",
        first_look: tricks::first_look,
    },
    #[cfg(feature = "gateway")]
    Implementation {
        name: "gateway",
        first_look: crate::gateway::first_look,
    },
];

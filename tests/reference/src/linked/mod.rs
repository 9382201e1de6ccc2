//! The keepers that are linked in as C symbols: the C port, and the proved keeper once its library is built.

pub mod c_port; // the C port of bench/
#[cfg(keeper)]
pub mod proved; // the static library that firmware links

use crate::drive::{Subject, REFERENCE};

/// The reference, and every keeper that is linked in.
pub fn all() -> Vec<Subject> {
    vec![
        REFERENCE,
        c_port::C_PORT,
        #[cfg(keeper)]
        proved::PROVED,
    ]
}

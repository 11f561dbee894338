//! The engine called through its six C functions, next to the second program:
//! the same steps on the same worlds, and every byte compared.

pub mod both;
pub mod by_hand;
pub mod damage;
pub mod damaged;
pub mod edges;
pub mod engine;
pub mod lent;
pub mod made;
pub mod rehearsed;
pub mod sheets;
#[cfg(feature = "stub")]
pub mod stub;
pub mod tally;

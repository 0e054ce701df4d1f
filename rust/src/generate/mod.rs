//! Seeded random material: plans, lists of run calls, states filled by hand, faulty files.
//!
//! Everything follows from a seed, so that a difference found once can be found again.

pub mod breakage;
pub mod changes;
pub mod damage;
pub mod files;
pub mod fill;
pub mod lists;
pub mod plans;
pub mod plant;
pub mod recipe;
pub mod rng;
pub mod states;

pub use breakage::Breakage;
pub use damage::Damage;
pub use files::Origin;
pub use fill::Fill;
pub use lists::{long_list, run_list, Call};
pub use plans::Family;
pub use rng::Rng;

//! Made-up sheets, bundles, formulas and test loads, right and damaged, always the same ones for the same seed.

pub mod bundles;
pub mod damage;
pub mod formulas;
pub mod loads;
pub mod random;
pub mod shapes;
pub mod sheets;

pub use random::Random;

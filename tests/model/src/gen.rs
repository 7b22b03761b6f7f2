//! Images made by chance, the same ones for the same seed: programs that run for a while, and damaged images.

mod damage;
mod program;
mod rng;

use crate::image;
pub use rng::Rng;

/// Image number `index` of a seed. It does not depend on how many others are made.
pub fn image(seed: u64, index: u64) -> Vec<u8> {
    let mut rng = Rng::for_index(seed, index);
    let bytes = image::pack(&program::routine(&mut rng));
    if rng.chance(12) {
        damage::damaged(&mut rng, bytes)
    } else {
        bytes
    }
}

//! The core, the stepper and the clock law agree over images by chance.

use model::check::{check, Outcome};
use model::gen;
use model::image::open;
use model::law::{counts, Law};
use model::memory::ImageStore;
use model::stepper::run;
use model::text::fresh_data;

#[test]
fn core_is_the_stepper_late() {
    let mut ran = 0;
    for index in 0..2_000 {
        match check(&gen::image(2, index)) {
            Ok(Outcome::Ran(_)) => ran += 1,
            Ok(Outcome::Refused(_)) => {}
            Err(difference) => panic!("image {index}: {difference}"),
        }
    }
    assert!(ran > 1_000);
}

/// The counts that are kept up to date are those that the page defines.
#[test]
fn law_is_kept_up_to_date() {
    for index in 0..100 {
        let Ok(words) = open(&gen::image(3, index)) else { continue };
        let events = run(&ImageStore::new(&words, 0), &mut fresh_data(), 200);
        let mut law = Law::default();
        for (n, event) in (1..).zip(&events) {
            assert_eq!(law.next(event), counts(&events, n));
        }
    }
}

#[test]
fn images_depend_on_seed_and_index_only() {
    assert_eq!(gen::image(5, 17), gen::image(5, 17));
    assert_ne!(gen::image(5, 17), gen::image(5, 18));
    assert_ne!(gen::image(5, 17), gen::image(6, 17));
}

//! Demand 3's last clause on real images: collapsed with itself, or on either side with an image whose grains are all absent,
//! an image gives its normal form, which is its own normal form.

use std::fs;
use std::path::Path;

/// An image of `samples/`.
fn sample(name: &str) -> Vec<u8> {
    let path = Path::new(env!("CARGO_MANIFEST_DIR")).join("../../samples");
    fs::read(path.join(name)).expect(name)
}

fn collapsed(lower: &[u8], upper: &[u8]) -> Vec<u8> {
    let mut out = vec![7; 1 << 21];
    let written = anhkhovet::collapse(lower, upper, &mut out);
    out.truncate(written.unwrap() as usize);
    out
}

fn normal(image: &[u8]) -> Vec<u8> {
    let mut out = vec![7; 1 << 21];
    let written = anhkhovet::normal(image, &mut out);
    out.truncate(written.unwrap() as usize);
    out
}

#[test]
fn itself_and_absent_grains_give_the_normal_form() {
    let (image, absent) = (sample("tool-base.vmdk"), sample("monolithic-sparse.vmdk"));
    let form = normal(&image);
    // Some grain is stored, and none in the other one: else this would show nothing.
    assert!(form.len() > normal(&absent).len());
    assert_ne!(form, image);
    assert_eq!(collapsed(&image, &image), form);
    assert_eq!(collapsed(&absent, &image), form);
    assert_eq!(collapsed(&image, &absent), form);
    assert_eq!(normal(&form), form);
}

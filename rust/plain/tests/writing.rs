//! Document 01's examples on collapse and normal form.

mod common;

use common::{kdmv, put32, set};
use plain::{check, collapse, normal, over, Refusal};

fn number(result: Result<Vec<u8>, Refusal>) -> u64 {
    result.err().map_or(0, |refusal| refusal.number)
}

#[test]
fn one_stored_grain() {
    let mut image = kdmv(16, 8, 20);
    set(&mut image, 1, 9);
    image[9 * 512..17 * 512].fill(7);
    let result = normal(&image, 8192).unwrap();
    assert_eq!(result.len(), 8192);
    assert_eq!(check(&result).number, 0);
    assert_eq!(result[2 * 512..2 * 512 + 8], [0, 0, 0, 0, 8, 0, 0, 0]);
    assert!(result[8 * 512..].iter().all(|byte| *byte == 7));
    assert_eq!(number(normal(&image, 8191)), 21);
    assert_eq!(normal(&result, 9000).unwrap(), result);

    let mut out = vec![3; 8200];
    assert_eq!(over(normal(&image, out.len()), &mut out).length, 8192);
    assert_eq!((&out[..8192], &out[8192..]), (&result[..], &[3; 8][..]));
}

#[test]
fn upper_over_lower() {
    let mut lower = kdmv(20, 8, 40);
    for grain in 0..3 {
        set(&mut lower, grain, 8 + 8 * grain as u32);
    }
    lower[8 * 512..].fill(1);
    let mut upper = kdmv(20, 8, 40);
    set(&mut upper, 0, 30);
    set(&mut upper, 1, 1);
    upper[30 * 512..].fill(2);
    let result = collapse(&lower, &upper, 1 << 20).unwrap();
    assert_eq!(result.len(), 512 * 24);
    assert!(result[8 * 512..16 * 512].iter().all(|byte| *byte == 2));
    assert!(result[16 * 512..20 * 512].iter().all(|byte| *byte == 1));
    // Sectors past capacity are zero.
    assert!(result[20 * 512..].iter().all(|byte| *byte == 0));
}

#[test]
fn refusals_in_order() {
    let sound = kdmv(16, 8, 20);
    let other = kdmv(17, 8, 20);
    let bad = kdmv(16, 4, 20);
    let mut packed = kdmv(16, 8, 20);
    put32(&mut packed, 8, 0x10005);
    packed[77] = 1;
    assert_eq!(number(collapse(&bad, &packed, 0)), 6);
    assert_eq!(number(collapse(&packed, &bad, 0)), 6);
    assert_eq!(number(collapse(&packed, &other, 0)), 23);
    assert_eq!(number(collapse(&sound, &packed, 0)), 23);
    assert_eq!(number(collapse(&sound, &other, 0)), 22);
    assert_eq!(number(collapse(&sound, &sound, 0)), 21);
    assert_eq!(number(normal(&packed, 0)), 23);
}

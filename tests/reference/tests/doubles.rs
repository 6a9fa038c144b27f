//! The doubles of 02, E8: the second implementation, which works on bits, against the processor's
//! own arithmetic, at every width.

use reference::doubles::{bits_of, units_of};
use reference::edges::doubles;
use reference::samples::{double, Random};
use reference::width::{Width, WIDTHS, WIDTH_48};

/// Whole and below 2^(F+1) in size, by the processor.
fn units(x: f64, width: Width) -> Option<i64> {
    let product = x * width.one() as f64;
    let whole = product.trunc() == product && product.abs() < 2.0 * width.one() as f64;
    (whole && x.to_bits() != (-0.0f64).to_bits()).then_some(product as i64)
}

#[test]
fn by_hand() {
    for (bits, wanted) in doubles() {
        assert_eq!(units_of(bits, WIDTH_48), wanted, "{bits:016x}");
    }
}

#[test]
fn by_the_processor() {
    let mut random = Random::new(91);
    for width in WIDTHS {
        let mut met = [0; 2];
        for _ in 0..1_000_000 {
            let bits = double(&mut random, width);
            let wanted = units(f64::from_bits(bits), width);
            assert_eq!(units_of(bits, width), wanted, "{bits:016x} at {width:?}");
            if let Some(units) = wanted {
                assert_eq!(bits_of(units, width), bits);
                assert_eq!((units as f64 / width.one() as f64).to_bits(), bits);
            }
            met[usize::from(wanted.is_some())] += 1;
        }
        assert!(met.iter().all(|&count| count > 200_000), "{met:?}");
    }
}

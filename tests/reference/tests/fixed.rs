//! The fixed-point arithmetic, against i128 and known constants.

use reference::fixed::{Complex, Fixed};
use reference::samples::Random;

#[test]
fn agrees_with_i128() {
    let mut random = Random::new(7);
    for _ in 0..20_000 {
        let a = random.between(i64::MIN.into(), i64::MAX.into());
        let b = random.between(-(1 << 62), 1 << 62);
        let (x, y) = (Fixed::ratio(a, 60), Fixed::ratio(b, 61));
        assert_eq!(x * y, Fixed::ratio(a * b, 121));
        assert_eq!(x + y, Fixed::ratio(2 * a + b, 61));
        assert_eq!(x - y, Fixed::ratio(2 * a - b, 61));
        assert_eq!(x < y, 2 * a < b);
        assert_eq!(x.abs(), Fixed::ratio(a.abs(), 60));
        assert_eq!(x.floor(), a.div_euclid(1 << 60));
        assert_eq!(Fixed::ratio(a, 0).divided_by(7).floor(), a.div_euclid(7));
        assert_eq!(Fixed::ratio(4 * a + 1, 9).nearest(7), a);
        assert_eq!(Fixed::ratio(4 * a + 3, 9).nearest(7), a + 1);
    }
}

#[test]
fn thirty_decimals() {
    let decimals = Fixed::ratio(10i128.pow(30), 0);
    let e = Complex::ONE.exponential(100).re;
    assert_eq!((e * decimals).floor(), 2_718281828459045235360287471352);
    let turned = Complex::ratio(0, 1, 0).exponential(100);
    assert_eq!((turned.re * decimals).floor(), 540302305868139717400936607442);
    assert_eq!((turned.im * decimals).floor(), 841470984807896506652502321630);
}

#[test]
fn truncated_sums() {
    // 1 + z + z²/2 at z = 2 + 4i
    let z = Complex::ratio(2, 4, 0);
    assert_eq!(z.exponential(0), Complex::ZERO);
    assert_eq!(z.exponential(1), Complex::ONE);
    assert_eq!(z.exponential(3), Complex::ratio(-3, 12, 0));
}

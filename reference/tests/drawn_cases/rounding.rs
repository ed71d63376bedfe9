//! Tenths of a cent to cents.

use reference::draws::Draws;
use reference::target::round;

use crate::compare::Kind;
use crate::lent::{Lent, Row};
use crate::library;

fn draw_tenths(draws: &mut Draws) -> i64 {
    let any = draws.any() as i64;
    match draws.below(5) {
        0 => any,
        1 => any % 21,
        2 => any % 1_000_001,
        3 => any / 10 * 10 + draws.one_of(&[-5, 0, 5]),
        _ => {
            let small = draws.below(40) as i64;
            draws.one_of(&[i64::MAX - small, i64::MIN + small])
        }
    }
}

#[test]
fn any_number() {
    let kind = Kind {
        test: "rounding::any_number",
        base: Some(6_364_136_223_846_793_005),
        cases: 1_000_000,
        refusals: &[],
    };
    kind.run(|case| {
        let tenths = draw_tenths(&mut case.draws);
        let input = format!("tenths {tenths}; the cents are line 0");
        // The cents have no refusal: they are compared as a line.
        let lent = Lent {
            lines: Row::lent(&[0], 1, || 0),
            ..Lent::default()
        };
        let cents = |lent: &mut Lent, cents: i64| {
            lent.lines.slice_mut()[0] = cents;
            0
        };
        let library = |lent: &mut Lent| cents(lent, library::cents(tenths));
        let second = |lent: &mut Lent| cents(lent, round(tenths));
        case.compare("cents", &input, &lent, library, second);
    });
}

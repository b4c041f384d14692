//! The lines of `rate.tsv`: what they say of a card's rate.

use crate::implementations::Implementation;
use rings_second::reference::{ExactRate, Fraction, ANSWER_LEN, CARD_LEN};
use rings_second::samples::register_of_bytes;

/// Holds an implementation to a card's exact rate and to the slack of the bound on the reported one. Only the reference
/// tells these two itself.
pub fn hold(by: &Implementation, card: &[u8], exact: &str, slack: &str, place: &str) {
    let card: [u8; CARD_LEN] = card.try_into().expect("24 bytes");
    let answered = by.answers(&register_of_bytes(&[card]), ANSWER_LEN);
    let (answer, _) = answered.unwrap_or_else(|refused| panic!("{place}: {refused:?}"));
    let rate = u64::from_be_bytes(answer[6..14].try_into().expect("eight bytes"));
    let stored = Stored { exact: terms(exact), slack: terms(slack) };
    assert!(stored.admits(answer[4], rate.into()), "{place}: {rate} thousandths by route {}", answer[4]);
    if let Some(told) = by.exact_rate(&card) {
        let ExactRate { route, exact: our_exact, slack: our_slack, .. } = told.expect("an accepted card");
        assert_eq!((route, text(our_exact).as_str(), text(our_slack).as_str()), (answer[4], exact, slack), "{place}");
    }
}

/// The numbers of a line, each a numerator and a denominator.
struct Stored {
    exact: (u128, u128),
    slack: (u128, u128),
}

impl Stored {
    /// What the request says of a reported rate, in whole numbers: no implementation's fractions judge it.
    fn admits(&self, route: u8, thousandths: u128) -> bool {
        let ((exact, parts), (slack, slack_parts)) = (self.exact, self.slack);
        // Both in parts of a thousandth of a pound per minute.
        let (reported, exact) = (thousandths * parts, 1_000 * exact);
        let is_below_bound = reported * slack_parts < exact * slack_parts + 1_000 * slack * parts;
        match route {
            1 | 3 => reported == exact && self.slack == (0, 1),
            2 => reported >= exact && is_below_bound && slack > 0,
            _ => false,
        }
    }
}

fn terms(text: &str) -> (u128, u128) {
    let (numerator, denominator) = text.split_once(' ').expect("a numerator and a denominator");
    let whole = |digits: &str| digits.parse().expect("a whole number");
    (whole(numerator), whole(denominator))
}

fn text(fraction: Fraction) -> String {
    format!("{} {}", fraction.numerator(), fraction.denominator())
}

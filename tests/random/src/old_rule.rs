//! Acceptance as it was before there were marks: asked anew each time, and
//! taken away by whoever comes later. The runs count where marks part from it.

use second::ledger::Ledger;

/// Every booking's acceptance by the slots as they stand, parents before
/// children.
pub fn accepted(ledger: &Ledger) -> Vec<bool> {
    let mut accepted = vec![true];
    for (b, booking) in ledger.bookings.iter().enumerate().skip(1) {
        let slot = ledger.slot_of(b);
        let is_enough = |beta| ledger.setting.is_enough(slot.counter, beta);
        let by_beta2 = slot.preferred == b && slot.last == b && is_enough(ledger.setting.beta2);
        let by_beta1 = slot.bookings.len() == 1
            && is_enough(ledger.setting.beta1)
            && booking.parents.iter().all(|&parent| accepted[parent]);
        accepted.push(by_beta1 || by_beta2);
    }
    accepted
}

#[cfg(test)]
mod tests {
    use super::*;
    use second::setting::Setting;

    /// P10, then a rival, then chits for the rival.
    #[test]
    fn a_rival_drops_it_and_takes_it() {
        let setting = Setting {
            k: 1,
            a: 1,
            beta1: 1,
            beta2: 2,
            edition: 0,
        };
        let mut ledger = Ledger::open(setting).expect("it is good");
        let book = |ledger: &mut Ledger, name, slot, parent| {
            ledger.book(name, slot, &[parent]).expect("it is taken")
        };
        let poll = |ledger: &mut Ledger, name| ledger.poll(name, &[1]).expect("it is taken");
        book(&mut ledger, 1, 7, 0);
        book(&mut ledger, 2, 8, 1);
        poll(&mut ledger, 1);
        assert_eq!(accepted(&ledger), [true, false, false]);
        poll(&mut ledger, 2);
        assert_eq!(accepted(&ledger), [true, true, false]);
        book(&mut ledger, 3, 7, 0);
        assert_eq!(accepted(&ledger), [true, false, false, false]);
        for name in 4..7 {
            book(&mut ledger, name, 7 + name as u16, 3);
        }
        for name in 3..7 {
            poll(&mut ledger, name);
        }
        let by_old_rule = [true, false, false, true, false, false, false];
        assert_eq!(accepted(&ledger), by_old_rule);
    }
}

//! Orders of elimination as test cases: right ones, and wrong ones of every sort.

use super::Random;
use crate::questions::{Order, UNUSED};

/// Every order of so many unknowns.
pub fn every_order(u: u64) -> Vec<Order> {
    let mut begun = vec![vec![]];
    for _ in 0..u {
        let longer = |list: &Vec<usize>| -> Vec<Vec<usize>> {
            let others = (0..u as usize).filter(|unknown| !list.contains(unknown));
            others.map(|unknown| [&list[..], &[unknown]].concat()).collect()
        };
        begun = begun.iter().flat_map(longer).collect();
    }
    begun.iter().map(|list| Order::of(list)).collect()
}

/// The order 0, 1, 2 and so on, whatever the number of unknowns.
pub fn default_order(u: u64) -> Order {
    Order::default_for(u.min(6) as usize)
}

/// The order 0, 1, 2 and so on backwards.
pub fn reverse_order(u: u64) -> Order {
    Order::of(&(0..u.min(6) as usize).rev().collect::<Vec<_>>())
}

impl Random {
    /// Any order of so many unknowns, the default order once in three.
    pub fn order(&mut self, u: u64) -> Order {
        let mut unknowns: Vec<usize> = (0..u.min(6) as usize).collect();
        if !self.once_in(3) {
            for place in (1..unknowns.len()).rev() {
                unknowns.swap(place, self.below(place + 1));
            }
        }
        Order::of(&unknowns)
    }

    /// An order that is mostly right: else one byte of it is another, or any bytes.
    pub fn any_order(&mut self, u: u64) -> Order {
        let mut order = self.order(u);
        match self.below(12) {
            0 => {
                let place = self.below(6);
                order.0[place] = self.pick(&[0, 1, 2, 3, 4, 5, 6, 7, 254, 255]);
            }
            1 => order.0 = [(); 6].map(|()| self.pick(&[0, 1, 2, 3, 4, 5, 255])),
            _ => {}
        }
        order
    }
}

/// Orders for which question 17 is answered no: an unknown twice, one missing, one too many, 255
/// in the middle or first, a number of U or more, another byte than 255 in an unused place.
pub fn wrong_orders(u: u64) -> Vec<Order> {
    let right = reverse_order(u).0;
    let count = u as usize;
    let mut wrong = vec![[UNUSED; 6], [0; 6], [7; 6], [6, 5, 4, 3, 2, 1], [1, 2, 3, 4, 5, 6]];
    wrong.push(default_order(u + 1).0);
    wrong.push(default_order(u.saturating_sub(1)).0);
    for place in 0..count {
        for byte in [right[(place + 1) % count], u as u8, 6, 32, 64, 128, 254, UNUSED] {
            let mut other = right;
            other[place] = byte;
            wrong.push(other);
        }
        // one place further back, 255 in the gap
        let mut gap = right;
        gap[place..].rotate_right(1);
        wrong.push(gap);
    }
    for place in count..6 {
        for byte in [0, u as u8, 254] {
            let mut other = right;
            other[place] = byte;
            wrong.push(other);
        }
    }
    wrong.sort();
    wrong.dedup();
    let right = every_order(u);
    wrong.into_iter().map(Order).filter(|order| !right.contains(order)).collect()
}

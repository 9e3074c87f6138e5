//! What kind of history it is to be: the ring, the nodes, the places, and how often each call comes.

use super::Generator;
use crate::random::Random;

type Choice = fn(&mut Generator);

/// Every choice with its usual weight.
const CHOICES: [(u64, Choice); 20] = [
    (30, Generator::write),
    (8, Generator::pin),
    (12, Generator::unpin),
    (5, Generator::fetch),
    (8, Generator::fill),
    (2, Generator::fill_with_anything),
    (12, Generator::flush),
    (9, Generator::report),
    (8, Generator::land),
    (3, Generator::ticket),
    (5, Generator::ask),
    (2, Generator::turn),
    (2, Generator::end),
    (2, Generator::reopen),
    (7, Generator::nonsense),
    (1, Generator::unpin_all),
    (4, Generator::drain),
    (1, Generator::churn),
    (2, Generator::read_across_a_flush),
    (1, Generator::rarely),
];

pub struct Plan {
    pub damage: bool,
    pub slots: u64,
    pub nodes: Vec<u32>,
    /// Most offsets lie below this.
    pub span: u64,
    /// How many writes in a hundred are long.
    pub long: u64,
    weights: Vec<u64>,
}

impl Plan {
    pub fn draw(random: &mut Random, damage: bool) -> Plan {
        let any = random.between(18, 255);
        let nodes = (0..random.between(1, 4)).map(|_| draw_node(random)).collect();
        // Each kind of call is made rarer or more frequent, so that histories differ.
        let weights = CHOICES.iter().map(|&(weight, _)| weight * random.pick(&[1, 2, 4, 4, 4, 8])).collect();
        Plan {
            damage,
            slots: random.pick(&[18, 18, 19, 20, 24, 33, 64, 130, 254, 255, any]),
            nodes,
            span: random.pick(&[12, 40, 300, 5_000, 14_000, 40_000]),
            long: random.pick(&[0, 3, 10, 30, 30]),
            weights,
        }
    }

    pub fn choose(&self, random: &mut Random) -> Choice {
        let mut left = random.below(self.weights.iter().sum());
        for (&weight, &(_, choice)) in self.weights.iter().zip(&CHOICES) {
            if left < weight {
                return choice;
            }
            left -= weight;
        }
        unreachable!("the weights were summed")
    }
}

fn draw_node(random: &mut Random) -> u32 {
    match random.below(8) {
        0 => u32::MAX,
        1 => random.draw() as u32 | 1,
        2 => 0x0100_0000,
        _ => random.between(1, 9) as u32,
    }
}

//! Random histories. The generator plays what it writes, so that its arguments can mean something, and follows the
//! shore, so that its fills bring bytes that were really fetched.

mod calls;
mod damage;
mod looks;
mod nonsense;
mod plan;

use crate::check::{Checker, Standing, Step};
use crate::coverage::Coverage;
use crate::player::{Answer, Player};
use crate::random::Random;
use crate::ring::NUMBER_LIMIT;
use crate::rules::Fault;
use crate::script::{Command, Line, read_line};
use plan::Plan;

/// Changes what a command has done and answered; for tests of the checks.
pub type Twist = fn(before: &Player, command: &Command, after: &mut Player, answer: &mut Answer);

/// A history as it was written and played.
pub struct Written {
    pub script: Vec<u8>,
    /// What the model answered.
    pub output: Vec<u8>,
    pub coverage: Coverage,
    /// The first rule that didn't hold, and the script's line.
    pub fault: Option<(usize, Fault)>,
}

pub fn generate(seed: u64, calls: usize) -> Written {
    generate_twisted(seed, calls, |_, _, _, _| (), &[])
}

/// A history of a box that is twisted, checked without some of the rules.
pub fn generate_twisted(seed: u64, calls: usize, twist: Twist, skipped: &'static [&'static str]) -> Written {
    let mut generator = Generator::new(seed, calls, twist);
    generator.checker.skipped = skipped;
    generator.start();
    while generator.calls < calls && generator.fault.is_none() {
        generator.step();
    }
    generator.finish()
}

struct Generator {
    random: Random,
    plan: Plan,
    twist: Twist,
    player: Player,
    checker: Checker,
    script: Vec<u8>,
    output: Vec<u8>,
    line: usize,
    calls: usize,
    most_calls: usize,
    fault: Option<(usize, Fault)>,
    tickets: Vec<u64>,
}

impl Generator {
    fn new(seed: u64, most_calls: usize, twist: Twist) -> Generator {
        let mut random = Random::new(seed);
        let plan = Plan::draw(&mut random, seed % 2 == 1);
        Generator {
            random,
            plan,
            twist,
            player: Player::default(),
            checker: Checker::default(),
            script: Vec::new(),
            output: Vec::new(),
            line: 0,
            calls: 0,
            most_calls,
            fault: None,
            tickets: Vec::new(),
        }
    }

    /// Most histories begin with a ring; some first call on none.
    fn start(&mut self) {
        if self.random.chance(5) {
            self.any_call();
        }
        self.make();
    }

    fn step(&mut self) {
        if self.random.chance(3) {
            self.noise();
        }
        self.leave_dead_end();
        if self.plan.damage && self.random.chance(5) {
            self.damage();
        } else {
            self.any_call();
        }
    }

    fn any_call(&mut self) {
        let chosen = self.plan.choose(&mut self.random);
        chosen(self);
    }

    /// Where no history is followed, or no number is left, a new ring or a restart gives the rest some use.
    fn leave_dead_end(&mut self) {
        let lost = self.checker.standing != Standing::Followed;
        let used_up = self.player.state.next >= NUMBER_LIMIT;
        if (lost && self.random.chance(8)) || (used_up && self.random.chance(4)) {
            self.make();
        } else if (lost || used_up) && self.random.chance(4) {
            self.call("reopen");
        }
    }

    fn finish(mut self) -> Written {
        // The last line may lack its end.
        if self.random.chance(25) && self.script.len() > 1 {
            self.script.pop();
        }
        let Generator { script, output, checker, fault, .. } = self;
        Written { script, output, coverage: checker.coverage, fault }
    }

    /// Writes a call, plays it, and mostly looks at what it did. Behind the last call of the history it does nothing.
    fn call(&mut self, text: &str) -> Option<Answer> {
        if self.calls == self.most_calls {
            return None;
        }
        let answer = self.emit(text.as_bytes());
        self.calls += 1;
        self.look_after(text);
        answer
    }

    /// Writes a line and plays it.
    fn emit(&mut self, line: &[u8]) -> Option<Answer> {
        self.script.extend(line);
        self.script.push(b'\n');
        self.line += 1;
        match read_line(line) {
            Line::Command(command) => self.play(&command),
            _ => {
                self.output.extend(self.player.line(line, self.line).into_bytes());
                None
            }
        }
    }

    fn play(&mut self, command: &Command) -> Option<Answer> {
        let is_look = matches!(command, Command::Look(_));
        let before = if is_look { Player::default() } else { self.player.clone() };
        let answer = self.player.run(command);
        let Some(mut answer) = answer else {
            self.output.extend(format!("? {}\n", self.line).into_bytes());
            return None;
        };
        if !is_look {
            (self.twist)(&before, command, &mut self.player, &mut answer);
        }
        self.output.extend(format!("{answer}\n").into_bytes());
        if !is_look {
            let step = Step { before: &before, command, answer: &answer, after: &self.player };
            let checked = self.checker.observe(&step);
            self.note(checked);
        }
        Some(answer)
    }

    fn note(&mut self, checked: Result<(), Fault>) {
        if let (Err(fault), None) = (checked, &self.fault) {
            self.fault = Some((self.line, fault));
        }
    }

    fn is_followed(&self) -> bool {
        self.checker.standing == Standing::Followed
    }

    /// A number as a word, now and then with zeros in front.
    fn word(&mut self, number: u64) -> String {
        if self.random.chance(1) { format!("000{number}") } else { number.to_string() }
    }
}

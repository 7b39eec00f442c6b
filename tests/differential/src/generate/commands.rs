//! Commands, good and bad, with any mask or with mask 0.

use super::words;
use crate::model::{allowed, faults::NONE};
use crate::random::Random;

#[derive(Clone, Copy)]
pub struct Command {
    pub id: u32,
    pub mask: u32,
    pub extra: u32,
    pub consecutive: bool,
}

impl Command {
    pub fn allowed_writes(&self) -> u32 {
        let step = u32::from(self.consecutive);
        let allowed = |write: &u32| allowed::<NONE>(self.id + step * write, self.mask).is_ok();
        (0..=self.extra).take_while(allowed).count() as u32
    }

    /// With garbage in the unused bits and in the padding word.
    pub fn push(&self, random: &mut Random, list: &mut Vec<u32>) {
        let unused = if random.chance(1, 2) {
            random.below(8)
        } else {
            0
        };
        list.push(words::value(random));
        list.push(
            self.id
                | self.mask << 16
                | self.extra << 20
                | unused << 28
                | u32::from(self.consecutive) << 31,
        );
        for _ in 0..self.extra {
            list.push(words::value(random));
        }
        if self.extra % 2 == 1 {
            list.push(random.word());
        }
    }
}

fn extra(random: &mut Random) -> u32 {
    match random.below(16) {
        0..=5 => 0,
        6..=10 => random.between(1, 4),
        11..=13 => random.between(5, 20),
        14 => random.below(256),
        _ => random.pick(&[126, 127, 128, 129, 254, 255]),
    }
}

fn any_command(random: &mut Random) -> Command {
    Command {
        id: words::id(random),
        mask: words::mask(random),
        extra: extra(random),
        consecutive: random.chance(1, 2),
    }
}

/// A command all of whose writes are allowed: another one, cut short where
/// its first write at fault stands.
pub fn good_command(random: &mut Random) -> Command {
    loop {
        let mut command = any_command(random);
        if random.chance(1, 2) && allowed::<NONE>(command.id, command.mask) == Err(5) {
            command.mask = 0xF;
        }
        let writes = command.allowed_writes();
        if writes > 0 {
            command.extra = writes - 1;
            return command;
        }
    }
}

/// A command that reaches `fault` after some writes, or with its first.
fn reaching(random: &mut Random, fault: u32, mask: u32) -> Command {
    let before = random.pick(&[0, 0, 1, 2, 3, 10, 100, 255]).min(fault);
    Command {
        id: fault - before,
        mask,
        extra: random.between(before, 255),
        consecutive: before > 0 || random.chance(1, 2),
    }
}

/// A mask that no port's data allows.
fn port_mask(random: &mut Random) -> u32 {
    if random.chance(1, 4) {
        0
    } else {
        random.below(15)
    }
}

/// A command with a write at fault.
pub fn bad_command(random: &mut Random) -> Command {
    let mask = words::mask(random);
    match random.below(7) {
        0 => Command {
            id: random.pick(&[0x300, 0x301, 0x1041, 0x8041, 0xFFFF, 0x33C]),
            ..any_command(random)
        },
        1 => reaching(random, 0x300, mask),
        2 | 3 => {
            let jump = random.pick(&words::JUMPS);
            reaching(random, jump, mask)
        }
        4 => Command {
            id: words::port_data(random),
            mask: port_mask(random),
            ..any_command(random)
        },
        5 => {
            let data = words::port_data(random);
            let mask = port_mask(random);
            reaching(random, data, mask)
        }
        // Two faults in one command: the port's comes first.
        _ => Command {
            id: random.between(0x1C0, 0x1C8),
            mask: port_mask(random),
            extra: 255,
            consecutive: true,
        },
    }
}

/// A command with mask 0, short or long; one of 24 has a write at fault.
pub fn idle_command(random: &mut Random) -> Command {
    if random.chance(1, 24) {
        let command = bad_command(random);
        return Command { mask: 0, ..command };
    }
    loop {
        let mut command = any_command(random);
        command.mask = 0;
        let writes = command.allowed_writes();
        if writes > 0 {
            command.extra = writes - 1;
            return command;
        }
    }
}

//! `bench movers`: policies through a mover of the bench's own, written from document 02, and through the port's claspwillow_to_new and
//! claspwillow_to_old.

use crate::policies::{chain, damaged_any, key, long_key, or, Maker, KEY, LONG_KEY};
use crate::port::{self, Results};
use crate::random::Random;
use crate::records::{in_new_kinds, in_old_kinds, read_policy, to_hex, u16s, Writer};

const OUTPUT_TOO_SMALL: u32 = 13;
const KEY_TOO_LARGE: u32 = 18;

/// The words of work memory that compile asks for, and room for every tree of the policies here.
const WORK: usize = 612_360;
const ROOM: usize = 1 << 16;

/// Bytes behind what is lent, which no call may touch.
const FENCE: usize = 16;
const FENCE_BYTE: u8 = 0xA5;

/// Where a policy is moved.
#[derive(Clone, Copy, PartialEq, Eq, Debug)]
enum To {
    New,
    Old,
}

use To::{New, Old};

/// What a mover must give: refusals as compile reads, then 18, then 13.
fn moved(to: To, policy: &[u8], room: usize) -> Result<Vec<u8>, u32> {
    read_policy(policy)?;
    let out = match to {
        New => in_new_kinds(policy),
        Old => in_old_kinds(policy).ok_or(KEY_TOO_LARGE)?,
    };
    if out.len() > room {
        Err(OUTPUT_TOO_SMALL)
    } else {
        Ok(out)
    }
}

/// The memory that is lent, and what the calls have given, each way.
struct Desk {
    out: Vec<u8>,
    work: Vec<u64>,
    numbers: [[u64; 20]; 2],
    there_and_back: u64,
    compiled: u64,
    differences: u64,
}

impl Desk {
    fn say(&mut self, message: String) {
        self.differences += 1;
        if self.differences <= 10 {
            println!("{message}");
        }
    }

    /// One call with so much room; what differs is said. Gives the bytes that the port wrote, if it is done.
    fn call(&mut self, dirt: u64, to: To, policy: &[u8], room: usize) -> Option<Vec<u8>> {
        let wanted = moved(to, policy, room);
        let number = wanted.as_ref().err().copied().unwrap_or(0);
        self.numbers[to as usize][number as usize] += 1;
        self.out.clear();
        self.out.resize(room, dirt as u8);
        self.out.resize(room + FENCE, FENCE_BYTE);
        let mut bytes = dirt;
        let given = match to {
            New => port::to_new(policy, &mut self.out[..room], &mut bytes),
            Old => port::to_old(policy, &mut self.out[..room], &mut bytes),
        };
        let written = wanted.unwrap_or_default();
        let case = || format!("to {to:?}, room {room}, policy {}", to_hex(policy));
        if (given, bytes) != (number, written.len() as u64) || !self.out.starts_with(&written) {
            self.say(format!("{}: wanted {number} and {}, the port gives {given} and {bytes} bytes", case(), to_hex(&written)));
        }
        if self.out[written.len()..room].iter().any(|&byte| byte != dirt as u8) || self.out[room..].iter().any(|&byte| byte != FENCE_BYTE) {
            self.say(format!("{}: output past the bytes written was changed", case()));
        }
        (given == 0).then(|| self.out[..(bytes as usize).min(room)].to_vec())
    }

    /// A policy each way: with room enough, with the room that just suffices, with a byte less and with less than that.
    fn each_way(&mut self, random: &mut Random, policy: &[u8]) -> [Option<Vec<u8>>; 2] {
        [New, Old].map(|to| {
            let length = moved(to, policy, usize::MAX).map_or(policy.len(), |out| out.len());
            let out = self.call(random.next(), to, policy, length + random.below(64));
            if random.once_in(2) {
                self.call(random.next(), to, policy, length);
                self.call(random.next(), to, policy, length.saturating_sub(1));
                self.call(random.next(), to, policy, random.below(length + 1));
            }
            out
        })
    }

    /// There and back by the port alone: a policy in old kinds comes back from the new ones, and one in new kinds from the old ones.
    fn back(&mut self, random: &mut Random, policy: &[u8], [new, old]: &[Option<Vec<u8>>; 2]) {
        let mut same = |way: [To; 2], from: &[u8], wanted: &[u8]| {
            let there = self.call(random.next(), way[0], from, from.len() * 2);
            let back = there.and_then(|there| self.call(random.next(), way[1], &there, there.len() * 2));
            self.there_and_back += 1;
            if back.as_deref() != Some(wanted) {
                self.say(format!("{way:?} does not give back {}", to_hex(wanted)));
            }
        };
        if let Some(old) = old {
            same([New, Old], old, old);
        }
        if let (Some(new), Some(_)) = (new, old) {
            same([Old, New], new, new);
        }
        if in_old_kinds(policy).is_some_and(|old| old == policy) {
            same([New, Old], policy, policy);
        }
    }

    /// What compile gives for a policy by the port: the number, the results and the tree.
    fn compile(&mut self, context: u32, policy: &[u8]) -> (u32, Results, Vec<u8>) {
        let mut out = vec![0; ROOM];
        let mut results = Results { bytes: 0, cost: 0, never: 0, nodes: 0 };
        self.work.resize(WORK, 0);
        let number = port::compile(context, policy, &mut out, &mut self.work, &mut results);
        out.truncate(results.bytes as usize);
        (number, results, out)
    }

    /// A policy and what it is moved to compile to the same answer.
    fn same_answer(&mut self, policy: &[u8], moved: &[Option<Vec<u8>>; 2]) {
        for context in 0..2 {
            let answer = self.compile(context, policy);
            for other in moved.iter().flatten().filter(|other| other[..] != *policy) {
                self.compiled += 1;
                if self.compile(context, other) != answer {
                    self.say(format!("context {context}: {} and {} compile to different answers", to_hex(policy), to_hex(other)));
                }
            }
        }
    }
}

/// Records given by kind and payload.
fn records(list: &[(u16, Vec<u8>)]) -> Vec<u8> {
    let mut out = Writer::default();
    for (kind, payload) in list {
        out.record(*kind, payload);
    }
    out.bytes
}

/// Each refusal by its smallest case, each case with all that later ones refuse: a key over 4,294,967,295 and no room.
fn corners(desk: &mut Desk, random: &mut Random) {
    const LARGE: u64 = 1 << 32;
    let keys = |n: usize| vec![(LONG_KEY, LARGE.to_le_bytes().to_vec()); n];
    let broken = [long_key(LARGE).bytes(), vec![0]].concat();
    let twice = records(&[keys(1), vec![(10, u16s(&[0, 0]))]].concat());
    let unused = records(&keys(2));
    let weight = or(0, long_key(LARGE), 1, long_key(LARGE)).bytes();
    let deep = or(1, long_key(LARGE), 1, chain(16, random)).bytes();
    let list: [(u32, To, Vec<u8>, usize); 25] = [
        (3, New, vec![], 0),
        (3, Old, vec![], 0),
        (3, New, broken.clone(), 0),
        (3, Old, broken, 0),
        (3, New, twice.clone(), 0),
        (3, Old, twice, 0),
        (3, Old, unused, 0),
        (3, Old, records(&[(LONG_KEY, vec![7, 0, 0, 0])]), 0),
        (3, New, records(&[(KEY, LARGE.to_le_bytes().to_vec())]), 0),
        (4, New, weight.clone(), 0),
        (4, Old, weight, 0),
        (5, New, records(&keys(65)), 0),
        (5, Old, records(&keys(65)), 0),
        (5, New, deep.clone(), 0),
        (5, Old, deep, 0),
        (KEY_TOO_LARGE, Old, long_key(LARGE).bytes(), 0),
        (KEY_TOO_LARGE, Old, long_key(u64::MAX).bytes(), 100),
        (KEY_TOO_LARGE, Old, or(1, key(7), 1, long_key(LARGE + 7)).bytes(), 0),
        (0, Old, long_key(LARGE - 1).bytes(), 8),
        (0, New, long_key(u64::MAX).bytes(), 12),
        (0, New, key(u32::MAX).bytes(), 12),
        (OUTPUT_TOO_SMALL, Old, long_key(LARGE - 1).bytes(), 7),
        (OUTPUT_TOO_SMALL, New, key(7).bytes(), 11),
        (OUTPUT_TOO_SMALL, New, long_key(LARGE).bytes(), 11),
        (OUTPUT_TOO_SMALL, Old, key(7).bytes(), 0),
    ];
    for (number, to, policy, room) in list {
        let before = desk.numbers[to as usize][number as usize];
        desk.call(random.next(), to, &policy, room);
        if desk.numbers[to as usize][number as usize] == before {
            desk.say(format!("the case for {number}, to {to:?}, asks for another number: {}", to_hex(&policy)));
        }
    }
}

/// COUNT policies, one in four damaged, both ways and back; one in 64 of those that are read is compiled. Gives whether the port agrees.
pub fn run(seed: u64, count: u64, records: usize) -> bool {
    let mut random = Random::new(seed);
    let mut desk = Desk { out: Vec::new(), work: Vec::new(), numbers: [[0; 20]; 2], there_and_back: 0, compiled: 0, differences: 0 };
    for _ in 0..count {
        let old = random.once_in(3);
        let maker = if old { Maker::old(&mut random) } else { Maker::new(&mut random) };
        let (_, mut policy) = { maker }.any_case(records);
        if random.once_in(4) {
            policy = damaged_any(&mut random, &policy);
        }
        let moved = desk.each_way(&mut random, &policy);
        if moved[0].is_some() {
            desk.back(&mut random, &policy, &moved);
            if random.once_in(64) {
                desk.same_answer(&policy, &moved);
            }
        }
    }
    for (to, refusals) in [(New, &[3, 4, 5, OUTPUT_TOO_SMALL][..]), (Old, &[3, 4, 5, KEY_TOO_LARGE, OUTPUT_TOO_SMALL])] {
        for number in refusals.iter().filter(|&&n| desk.numbers[to as usize][n as usize] == 0) {
            desk.differences += 1;
            println!("{number} was not given, to {to:?}");
        }
    }
    corners(&mut desk, &mut random);
    for (to, numbers) in desk.numbers.iter().enumerate() {
        let given: Vec<String> = (0..numbers.len()).filter(|&n| numbers[n] > 0).map(|n| format!("{n}: {}", numbers[n])).collect();
        println!("to {}: given {}", ["new", "old"][to], given.join(", "));
    }
    println!("{} times there and back, {} moved policies compiled", desk.there_and_back, desk.compiled);
    println!("{} differences in {count} policies", desk.differences);
    desk.differences == 0
}

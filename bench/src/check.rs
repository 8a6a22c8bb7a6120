//! `bench check`: random trees through the Rust's own type rules and through the port.

use crate::miniscript::context::{Segwitv0, Tap};
use crate::miniscript::ScriptContext;
use crate::random::Random;
use crate::records::to_hex;
use crate::room::HEIGHT;
use crate::{port, tall, trees};

/// Words behind the lent memory that no call may touch.
const FENCE: usize = 16;
const FENCE_WORD: u64 = 0xFEED_FACE_CAFE_BEEF;

/// The length of the lent memory: now and then a wrong one.
fn work_length(random: &mut Random) -> usize {
    if random.once_in(16) {
        *random.pick(&[0, 1, 4_095, 4_097, 8_192])
    } else {
        trees::CHECK_WORK
    }
}

/// Runs one case; what differs is said.
fn differs(random: &mut Random, memory: &mut Vec<u64>, context: u32, tree: &[u8]) -> Result<u32, String> {
    let length = work_length(random);
    let dirt = random.next();
    memory.clear();
    memory.resize(length, dirt);
    memory.resize(length + FENCE, FENCE_WORD);
    let mut ty = dirt as u32;
    let wanted = trees::check(context, tree, length);
    let number = port::check(context, tree, &mut memory[..length], &mut ty);
    let case = || format!("context {context}, work {length}, tree {}", to_hex(tree));
    if (number, ty) != wanted {
        return Err(format!("{}: the Rust gives {} and type {}, the port {number} and type {ty}", case(), wanted.0, wanted.1));
    }
    if memory[..length].iter().any(|&word| word != 0) {
        return Err(format!("{}: work memory is not all zero", case()));
    }
    if memory[length..].iter().any(|&word| word != FENCE_WORD) {
        return Err(format!("{}: memory behind the work memory was written", case()));
    }
    Ok(number)
}

/// Trees about as tall as they may be, of every way to be tall; gives how many differ, or lack.
fn about_128<Ctx: ScriptContext>(random: &mut Random, memory: &mut Vec<u64>, context: u32) -> u64 {
    let (cases, missing) = tall::trees::<Ctx>();
    let mut wrong = missing as u64;
    for (height, tree) in &cases {
        let wanted = if *height > HEIGHT { 19 } else { 0 };
        for _ in 0..4 {
            match differs(random, memory, context, tree) {
                Ok(number) if number == wanted || number == 2 => {}
                Ok(number) => {
                    wrong += 1;
                    println!("context {context}, a tree {height} high is given {number}: {}", to_hex(tree));
                }
                Err(message) => {
                    wrong += 1;
                    println!("{message}");
                }
            }
        }
    }
    println!("context {context}: {} trees of heights 127 to 129, {missing} ways to be tall not found", cases.len());
    wrong
}

/// COUNT trees of each flavour in each context; gives whether the port and the Rust agree on all of them.
pub fn run(seed: u64, count: u64, records: usize) -> bool {
    if port::check_work() != trees::CHECK_WORK {
        println!("the port asks for {} words of work memory, not {}", port::check_work(), trees::CHECK_WORK);
        return false;
    }
    let mut random = Random::new(seed);
    let mut memory = Vec::new();
    let mut differences = 0;
    for context in 0..2 {
        for (flavour, name) in trees::FLAVOURS.iter().enumerate() {
            let mut numbers = [0u64; 20];
            for _ in 0..count {
                let tree = trees::case(&mut random, context, flavour, records);
                let asked = if random.once_in(50) { *random.pick(&[2, 255, 256, 65_536, u32::MAX]) } else { context };
                match differs(&mut random, &mut memory, asked, &tree) {
                    Ok(number) => numbers[number as usize] += 1,
                    Err(message) => {
                        differences += 1;
                        if differences <= 10 {
                            println!("{message}");
                        }
                    }
                }
            }
            let given: Vec<String> = (0..20).filter(|&n| numbers[n] > 0).map(|n| format!("{n}: {}", numbers[n])).collect();
            println!("context {context}, {name}: {count} trees, given {}", given.join(", "));
        }
    }
    differences += about_128::<Segwitv0>(&mut random, &mut memory, 0) + about_128::<Tap>(&mut random, &mut memory, 1);
    println!("{differences} differences");
    differences == 0
}

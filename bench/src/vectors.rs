//! `bench vectors`: answers that were made elsewhere, by a Rust with the same rules, against those of the Rust here and of the port.
//!
//! A line is `CONTEXT POLICY NUMBER OUTPUT COST NEVER NODES` or `CONTEXT TREE NUMBER TYPE`.

use std::io::BufRead;

#[cfg(port)]
use crate::compile;
use crate::oracle::{self, Answer};
use crate::records::from_hex;
use crate::trees::{self, CHECK_WORK};

enum Vector {
    Compile(u32, Vec<u8>, Answer),
    Check(u32, Vec<u8>, (u32, u32)),
}

fn read(line: &str) -> Option<Vector> {
    let words: Vec<&str> = line.split_whitespace().collect();
    match words[..] {
        [context, policy, number, output, cost, never, nodes] => {
            let answer = Answer {
                number: number.parse().ok()?,
                output: from_hex(output)?,
                cost: u64::from_str_radix(cost, 16).ok()?,
                never: never.parse::<u32>().ok()? == 1,
                nodes: nodes.parse().ok()?,
            };
            Some(Vector::Compile(context.parse().ok()?, from_hex(policy)?, answer))
        }
        [context, tree, number, ty] => Some(Vector::Check(context.parse().ok()?, from_hex(tree)?, (number.parse().ok()?, ty.parse().ok()?))),
        _ => None,
    }
}

/// What differs from a vector, if something does.
fn differs(vector: &Vector) -> Result<(), String> {
    match vector {
        Vector::Compile(context, policy, wanted) => {
            let (answer, _) = oracle::answer(*context, policy)?;
            if answer != *wanted {
                return Err(format!("the vector has {wanted}, the Rust gives {answer}"));
            }
            #[cfg(port)]
            compile::port_gives(*context, policy, wanted)?;
        }
        Vector::Check(context, tree, wanted) => {
            let given = trees::check(*context, tree, CHECK_WORK);
            if given != *wanted {
                return Err(format!("the vector has {wanted:?}, the Rust gives {given:?}"));
            }
            #[cfg(port)]
            {
                let mut ty = 0;
                let number = crate::port::check(*context, tree, &mut vec![0; CHECK_WORK], &mut ty);
                if (number, ty) != *wanted {
                    return Err(format!("the vector has {wanted:?}, the port gives {:?}", (number, ty)));
                }
            }
        }
    }
    Ok(())
}

/// Compares each line of the input; gives whether all agree.
pub fn run(input: impl BufRead) -> std::io::Result<bool> {
    let (mut lines, mut differences) = (0, 0);
    for line in input.lines() {
        let line = line?;
        lines += 1;
        let outcome = read(&line).ok_or("it can't be read".to_string()).and_then(|vector| differs(&vector));
        if let Err(message) = outcome {
            differences += 1;
            if differences <= 10 {
                println!("line {lines}: {message}");
            }
        }
    }
    println!("{differences} differences in {lines} lines");
    Ok(differences == 0 && lines > 0)
}

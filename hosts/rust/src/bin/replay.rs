//! Replays a recording that arrives in blocks, as over a serial line: `replay FILE [SEED]` cuts the file at random, feeds the blocks and prints the
//! line. The exit status is 1 where the library refuses, and 2 where the program is called wrongly or the file can't be read. A seed is a number from
//! 1 on. The cuts are those of hosts/c/replay.c.
use linguastel::{code_name, Replay, E_OK};
use std::env::args;
use std::fs::File;
use std::io::{Read, Result};
use std::num::NonZeroU32;
use std::process::ExitCode;

// One block in two has few bytes, often less than a record; the others have more. Both may have none.
const FEW: u32 = 70;
const MANY: u32 = 4000;

// Marsaglia's generator; its state is never 0.
struct Noise(u32);

impl Noise {
    fn below(&mut self, limit: u32) -> u32 {
        self.0 ^= self.0 << 13;
        self.0 ^= self.0 >> 17;
        self.0 ^= self.0 << 5;
        (self.0 >> 8) % limit
    }
}

// What has arrived since the last block, and whether the file ends with it.
fn receive(file: &mut File, noise: &mut Noise) -> Result<(Vec<u8>, bool)> {
    let size = if noise.below(2) == 0 { noise.below(FEW + 1) } else { noise.below(MANY + 1) };
    let mut block = Vec::new();
    let read = file.take(size.into()).read_to_end(&mut block)?;
    Ok((block, read < size as usize))
}

// Each block up to the file's end. Gives the code of the last one.
fn feed(replay: &mut Replay, mut file: File, mut noise: Noise) -> Result<i32> {
    let (mut code, mut ended) = (E_OK, false);
    while code == E_OK && !ended {
        let block;
        (block, ended) = receive(&mut file, &mut noise)?;
        code = replay.feed(&block);
    }
    Ok(code)
}

fn main() -> ExitCode {
    let (file, seed) = (args().nth(1), args().nth(2).map_or(Ok(2_463_534_242), |seed| seed.parse().map(NonZeroU32::get)));
    let (Some(file), Ok(seed), 2..=3) = (file, seed, args().len()) else {
        eprintln!("replay FILE [SEED]: called wrongly");
        return ExitCode::from(2);
    };
    let mut replay = Replay::EMPTY;
    let fed = File::open(&file).and_then(|opened| feed(&mut replay, opened, Noise(seed)));
    let line = replay.end();
    match fed {
        Ok(E_OK) if line.code == E_OK => {
            println!("{line}");
            ExitCode::SUCCESS
        }
        Ok(code) => {
            eprintln!("the library refuses: a block {}, the end {}", code_name(code), code_name(line.code));
            ExitCode::FAILURE
        }
        Err(error) => {
            eprintln!("{file}: {error}");
            ExitCode::from(2)
        }
    }
}

//! Plays 1,000 games of two brains on one world, with the seeds 0 to 999, and prints their scores: games WORLD RED BLACK ROUNDS
use std::{env, error::Error, fs};

fn main() -> Result<(), Box<dyn Error>> {
    let words: Vec<String> = env::args().skip(1).collect();
    let [world, red, black, rounds] = &words[..] else {
        return Err("usage: games WORLD RED BLACK ROUNDS".into());
    };
    let (world, red, black) = (fs::read(world)?, fs::read(red)?, fs::read(black)?);
    let seeds: Vec<u32> = (0..1000).collect();
    let game = ants::Game::new(&world, &red, &black);
    for (seed, score) in seeds.iter().zip(game.scores(&seeds, rounds.parse()?)?) {
        println!("{seed} {} {}", score.red, score.black);
    }
    Ok(())
}

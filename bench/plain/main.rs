//! A plain Rust program that does what the proved programs do, with none of their code: it is
//! timed beside them, and a second opinion on what they answer.
//!
//! With no words, or with a call and a number of rounds, it does what `crates/awari_bench` does.
//! `tables TOP` writes the text of the levels from 0 to TOP, and `check` checks such a text.
//! `build TOP` builds the levels from 0 to TOP in the way of the proved builder; with `--verify` it
//! verifies each, and with `--folder FOLDER` it saves each. `verify FOLDER` loads and verifies the
//! levels of a folder.

mod board;
mod build;
mod folder;
mod level;
mod sha256;
mod tables;

use board::{Game, boards};
use std::env;
use std::hint::black_box;
use std::io::{Read, stdin};
use std::path::Path;
use std::process::ExitCode;

const STONES: usize = 10;

/// What a call counts in so many rounds.
fn measured(game: &Game, call: &str, rounds: u32) -> (u64, u64) {
    let (mut calls, mut total) = (0u64, 0u64);
    let mut add = |number: u64| {
        calls += 1;
        total += number;
    };
    for _ in 0..rounds {
        match call {
            "play" => {
                for board in boards(STONES) {
                    let played = |pit| black_box(game.play(board, pit));
                    for (next, captured) in (0..6).filter_map(played) {
                        add((captured + next.pit(3)) as u64);
                    }
                }
            }
            "rank" => boards(STONES).for_each(|board| add(game.rank(STONES, board) as u64)),
            "successor" => boards(STONES).for_each(|board| add(board.pit(5) as u64)),
            "unrank" => (0..game.size(STONES))
                .for_each(|rank| add(black_box(game.unrank(STONES, rank)).pit(5) as u64)),
            _ => {}
        }
    }
    (calls, total)
}

fn report(game: &Game, call: &str, rounds: u32) {
    let (calls, total) = measured(game, call, rounds);
    println!("{call} calls {calls} total {total}");
}

fn built(game: &Game, top: &str, options: &[&str]) -> Result<(), String> {
    let top = top.parse().map_err(|_| "no level".to_string())?;
    let verifies = options.contains(&"--verify");
    let folder = options
        .iter()
        .skip_while(|&&word| word != "--folder")
        .nth(1);
    build::build(game, top, verifies, folder.map(Path::new))
}

fn checked(game: &Game) -> Result<(), String> {
    let mut text = Vec::new();
    stdin()
        .read_to_end(&mut text)
        .map_err(|fault| fault.to_string())?;
    println!("{}", tables::check(game, &text)?);
    Ok(())
}

fn done(game: &Game, words: &[&str]) -> Result<(), String> {
    match words {
        ["tables", top] => print!("{}", tables::text(game, top.parse().unwrap_or(0))),
        ["build", top, options @ ..] => built(game, top, options)?,
        ["verify", folder] => println!("{}", folder::verify(game, Path::new(folder))?),
        ["check"] => checked(game)?,
        [call, rounds] => report(game, call, rounds.parse().unwrap_or(1)),
        _ => ["play", "rank", "successor", "unrank"]
            .iter()
            .for_each(|call| report(game, call, 1)),
    }
    Ok(())
}

fn main() -> ExitCode {
    let words: Vec<String> = env::args().skip(1).collect();
    let words: Vec<&str> = words.iter().map(String::as_str).collect();
    match done(&Game::new(), &words) {
        Ok(()) => ExitCode::SUCCESS,
        Err(refusal) => {
            println!("{refusal}");
            ExitCode::FAILURE
        }
    }
}

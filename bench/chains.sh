#!/bin/sh
# Measures the containers of sp_chain: what a step costs among few values and among many, and how many bytes are
# resident for a value. Proves sp_chain and the program that measures in a temporary folder first; needs rt in the path.
# Usage: bench/chains.sh [COUNT..], powers of two, by default 1,024 and 1,048,576.
[ $# -gt 0 ] || set -- 1024 1048576
cd "$(dirname "$0")/.." || exit 1
room=$(mktemp -d) || exit 1
trap 'rm -rf "$room"' EXIT
mkdir -p "$room/crates/measure/src" "$room/crates/sp_chain" || exit 1
cp -r crates/sp_chain/src crates/sp_chain/specs crates/sp_chain/proofs "$room/crates/sp_chain" || exit 1
cp HANDLES "$room" || exit 1
printf 'sp_chain: slab\nmeasure: sp_chain\n' > "$room/crates.txt"
cat > "$room/crates/measure/src/main.rt" << 'END'
//! Measures the containers of sp_chain. Words: what is measured, and how many values it holds.
#![tactic(auto)]

use sp_chain::chains::Chains;
use sp_chain::deadline::Deadline;
use sp_chain::deadlines::Deadlines;
use sp_chain::numbers::Numbers;
use std::alloc::{AllocError, Global};
use std::rt::Clock;
use std::time::Instant;
use std::{env, io};

// A number below `count`, a power of two, for each below it, each once, in an order like chance.
fn scattered(n: u64, count: u64) -> u64 {
    if count == 0 {
        return 0;
    }
    n.wrapping_mul(1_664_525).wrapping_add(1_013_904_223) % count
}


fn tell(rt: &(impl Clock + Print), what: &str, started: Instant, count: u64, sum: u64) -> io::Result<()> {
    let nanos = started.elapsed(rt)?.as_nanos();
    let each = if count == 0 { 0 } else { nanos / count as u128 };
    println!(rt; "  {what}: {each} ns (sum {sum})")
}

fn append(chains: &mut Chains<u64>, keys: &mut [usize]) -> u64 {
    let mut done = 0u64;
    for at in 0..keys.len() {
        let chain = at % 100;
        if chain < chains.chains() && chains.room() > 0 {
            keys[at] = chains.append(chain, at as u64);
            done = done.wrapping_add(1);
        }
    }
    done
}

fn look(chains: &Chains<u64>, keys: &[usize]) -> u64 {
    let mut sum = 0u64;
    for at in 0..keys.len() as u64 {
        let place = scattered(at, keys.len() as u64) as usize;
        if place < keys.len() {
            sum = sum.wrapping_add(*chains.get(keys[place]).unwrap_or(&0));
        }
    }
    sum
}

fn drain(chains: &mut Chains<u64>, count: u64) -> u64 {
    let mut sum = 0u64;
    for at in 0..count {
        if let Some(key) = chains.first((at % 100) as usize) {
            sum = sum.wrapping_add(chains.remove(key).unwrap_or(0));
        }
    }
    sum
}

fn scatter(chains: &mut Chains<u64>, keys: &[usize]) -> u64 {
    let mut sum = 0u64;
    for at in 0..keys.len() as u64 {
        let place = scattered(at, keys.len() as u64) as usize;
        if place < keys.len() {
            sum = sum.wrapping_add(chains.remove(keys[place]).unwrap_or(0));
        }
    }
    sum
}

fn measure_chains(rt: &(impl Clock + Print), alloc: Global, count: u64) -> io::Result<()> {
    let mut keys: Vec<usize> = Vec::new(alloc);
    keys.resize(count as usize, 0)?;
    let mut chains: Chains<u64> = Chains::new(alloc);
    chains.reserve(count as usize, 100)?;
    let started = Instant::now(rt)?;
    let sum = append(&mut chains, keys.as_mut_slice());
    tell(rt, "append", started, count, sum)?;
    let started = Instant::now(rt)?;
    let sum = look(&chains, keys.as_slice());
    tell(rt, "look up scattered", started, count, sum)?;
    let started = Instant::now(rt)?;
    let sum = drain(&mut chains, count);
    tell(rt, "remove from the front", started, count, sum)?;
    append(&mut chains, keys.as_mut_slice());
    let started = Instant::now(rt)?;
    let sum = scatter(&mut chains, keys.as_slice());
    tell(rt, "remove scattered", started, count, sum)?;
    append(&mut chains, keys.as_mut_slice());
    let started = Instant::now(rt)?;
    let sum = turn(&mut chains);
    tell(rt, "remove the first and append, among so many", started, 1_000_000, sum)
}

fn turn(chains: &mut Chains<u64>) -> u64 {
    let mut sum = 0u64;
    for at in 0..1_000_000u64 {
        let chain = (at % 100) as usize;
        if let Some(key) = chains.first(chain) {
            sum = sum.wrapping_add(chains.remove(key).unwrap_or(0));
        }
        if chain < chains.chains() && chains.room() > 0 {
            chains.append(chain, at);
        }
    }
    sum
}

fn number(numbers: &mut Numbers, count: u64) -> u64 {
    for at in 0..count {
        if numbers.room() > 0 {
            numbers.insert(at, at as usize);
        }
    }
    count
}

fn find(numbers: &Numbers, count: u64) -> u64 {
    let mut sum = 0u64;
    for at in 0..count {
        sum = sum.wrapping_add(numbers.get(scattered(at, count)).unwrap_or(0) as u64);
    }
    sum
}

fn forget(numbers: &mut Numbers, count: u64, is_scattered: bool) -> u64 {
    let mut sum = 0u64;
    for at in 0..count {
        let number = if is_scattered { scattered(at, count) } else { at };
        sum = sum.wrapping_add(numbers.remove(number).unwrap_or(0) as u64);
    }
    sum
}

// As numbers come and go: a new one at the end, the least one out, one more room before each.
fn roll(numbers: &mut Numbers, count: u64) -> Result<u64, AllocError> {
    let mut sum = 0u64;
    for at in 0..1_000_000u64 {
        numbers.reserve(1)?;
        if numbers.room() > 0 {
            numbers.insert(count.wrapping_add(at), at as usize);
        }
        sum = sum.wrapping_add(numbers.remove(at).unwrap_or(0) as u64);
    }
    Ok(sum)
}

fn measure_numbers(rt: &(impl Clock + Print), alloc: Global, count: u64) -> io::Result<()> {
    let mut numbers = Numbers::new(alloc);
    numbers.reserve(count as usize)?;
    let started = Instant::now(rt)?;
    let sum = number(&mut numbers, count);
    tell(rt, "insert in order", started, count, sum)?;
    let started = Instant::now(rt)?;
    let sum = find(&numbers, count);
    tell(rt, "look up scattered", started, count, sum)?;
    let started = Instant::now(rt)?;
    let sum = forget(&mut numbers, count, false);
    tell(rt, "remove in order", started, count, sum)?;
    numbers.reserve(count as usize)?;
    number(&mut numbers, count);
    let started = Instant::now(rt)?;
    let sum = forget(&mut numbers, count, true);
    tell(rt, "remove scattered", started, count, sum)?;
    numbers.reserve(count as usize)?;
    number(&mut numbers, count);
    let started = Instant::now(rt)?;
    let sum = roll(&mut numbers, count)?;
    tell(rt, "insert the next and remove the least, among so many", started, 1_000_000, sum)
}

fn set(deadlines: &mut Deadlines, count: u64, is_scattered: bool) -> u64 {
    for at in 0..count {
        let moment = if is_scattered { scattered(at, count) } else { at };
        let place = at as usize;
        if place < deadlines.places() {
            deadlines.insert(place, Deadline { moment, number: at });
        }
    }
    count
}

fn ask(deadlines: &Deadlines, count: u64) -> u64 {
    let mut sum = 0u64;
    for _at in 0..count {
        if let Some(deadline) = deadlines.first() {
            sum = sum.wrapping_add(deadline.number);
        }
    }
    sum
}

// Takes the first one out until none is left.
fn expire(deadlines: &mut Deadlines, count: u64) -> u64 {
    let mut sum = 0u64;
    for _at in 0..count {
        if let Some(deadline) = deadlines.first() {
            sum = sum.wrapping_add(deadline.moment);
            let place = deadline.number as usize;
            if place < deadlines.places() {
                deadlines.remove(place);
            }
        }
    }
    sum
}

fn clear(deadlines: &mut Deadlines, count: u64) -> u64 {
    for at in 0..count {
        let place = scattered(at, count) as usize;
        if place < deadlines.places() {
            deadlines.remove(place);
        }
    }
    count
}

fn measure_deadlines(rt: &(impl Clock + Print), alloc: Global, count: u64) -> io::Result<()> {
    let mut deadlines = Deadlines::new(alloc);
    let started = Instant::now(rt)?;
    deadlines.reserve(count as usize)?;
    tell(rt, "reserve", started, count, deadlines.places() as u64)?;
    let started = Instant::now(rt)?;
    let sum = set(&mut deadlines, count, false);
    tell(rt, "insert in order", started, count, sum)?;
    let started = Instant::now(rt)?;
    let sum = ask(&deadlines, count);
    tell(rt, "look at the first", started, count, sum)?;
    let started = Instant::now(rt)?;
    let sum = clear(&mut deadlines, count);
    tell(rt, "remove scattered", started, count, sum)?;
    let started = Instant::now(rt)?;
    let sum = set(&mut deadlines, count, true);
    tell(rt, "insert scattered moments", started, count, sum)?;
    let started = Instant::now(rt)?;
    let sum = expire(&mut deadlines, count);
    tell(rt, "look at the first and remove it", started, count, sum)
}

fn main(rt: HostRuntime) -> io::Result<()> {
    let mut words = Vec::new(rt.alloc());
    for word in env::args(&rt)?.skip(1) {
        words.push(word)?;
    }
    let [what, count] = words.as_slice() else {
        return println!(&rt; "words: chains, numbers or deadlines, and a power of two");
    };
    let Ok(count) = count.as_str().parse::<u64>() else {
        return println!(&rt; "a power of two is wanted");
    };
    match what.as_str() {
        "chains" => measure_chains(&rt, rt.alloc(), count),
        "numbers" => measure_numbers(&rt, rt.alloc(), count),
        "deadlines" => measure_deadlines(&rt, rt.alloc(), count),
        _ => println!(&rt; "nothing is measured"),
    }
}
END
(cd "$room/crates/measure" && rt run -- chains 1 > "$room/log" 2>&1) || { cat "$room/log" >&2; exit 1; }

# Runs the program, shows what it tells, and leaves the kilobytes that it had at most.
run() {
    kilobytes=$(command time -f %M "$room/crates/measure/out/measure" "$1" "$2" 2>&1 > "$room/told" | tail -n 1)
    [ "$2" = 1 ] || cat "$room/told"
}

for what in chains numbers deadlines; do
    run "$what" 1
    least=$kilobytes
    for count in "$@"; do
        echo "$what, $count values"
        run "$what" "$count"
        echo "  resident: $(((kilobytes - least) * 1024 / count)) bytes a value"
    done
done

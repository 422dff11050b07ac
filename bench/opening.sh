#!/bin/sh
# Measures how long a store takes to open a journal of many units again, and how many bytes are resident then. The units
# are publishes of 100 bytes to one queue, in a folder in memory where there is one. Proves sp_store, all that it stands
# on and the program that measures in a temporary folder first; needs rt in the path.
# Usage: bench/opening.sh [COUNT..], by default 10,000 and 100,000 units.
[ $# -gt 0 ] || set -- 10000 100000
cd "$(dirname "$0")/.." || exit 1
room=$(mktemp -d) || exit 1
disk=$(mktemp -d -p /dev/shm 2> /dev/null || mktemp -d) || exit 1
trap 'rm -rf "$room" "$disk"' EXIT

# All crates but the programs, and those that need more than the store does.
mkdir -p "$room/crates/measure/src" || exit 1
grep -v '^spoolrun' crates.txt > "$room/crates.txt" || exit 1
for crate in crates/sp_*; do
    mkdir -p "$room/$crate" || exit 1
    for part in src specs proofs; do
        [ ! -d "$crate/$part" ] || cp -r "$crate/$part" "$room/$crate" || exit 1
    done
done
cp HANDLES "$room" || exit 1
echo "measure: sp_base sp_disk sp_topic sp_message sp_copies sp_config sp_access sp_endpoint sp_pattern sp_selector sp_event sp_ledger sp_plan sp_core sp_unit sp_journal sp_store" >> "$room/crates.txt"
cat > "$room/crates/measure/src/main.rt" << 'END'
//! Opens the journal of the current folder, and tells how long that took. With a number it then
//! commits units until there are as many.
#![tactic(auto)]

ghost use Rattle.sp_base.specs.Name.{is_caller};
ghost use Rattle.std.specs.Prelude.{◌≡◌, IfSome, true};

use sp_base::bytes::Bytes;
use sp_base::moment::Moment;
use sp_base::name::Name;
use sp_config::kind::EndpointKind;
use sp_config::settings::Settings;
use sp_disk::disk::Disk;
use sp_disk::folder::FolderDisk;
use sp_event::request::Event;
use sp_message::message::{Dest, Message, TimeToLive};
use sp_message::payload::Payload;
use sp_message::property::Properties;
use sp_store::store::Store;
use std::alloc::Global;
use std::time::Instant;
use std::{env, io, slice};

const PAYLOAD: [u8; 100] = [120; 100];

fn ann(alloc: Global) -> Option<Name>
    ensures { IfSome result (λ n. is_caller n ≡ true) }
{
    let ann = Name::read(alloc, b"ann").ok()?;
    if !ann.is_caller() {
        return None;
    }
    Some(ann)
}

fn provision(alloc: Global) -> Option<Event> {
    Some(Event::Provision {
        endpoint: Name::read(alloc, b"q1").ok()?,
        kind: EndpointKind::Queue,
        attributes: Settings::none(alloc),
    })
}

fn publish(alloc: Global) -> Option<Event> {
    let payload = Bytes::copy_of(alloc, &PAYLOAD).ok()?;
    let message = Message {
        dest: Dest::Queue(Name::read(alloc, b"q1").ok()?),
        payload: Payload::from_bytes(payload),
        ttl: TimeToLive::of(0),
        eligible: false,
        properties: Properties::none(alloc),
    };
    Some(Event::Publish { message })
}

fn commit<D: Disk>(alloc: Global, store: &mut Store<D>) -> Option<u64> {
    let event = if store.units() == 0 { provision(alloc)? } else { publish(alloc)? };
    let ann = ann(alloc)?;
    let receipt = store.commit(alloc, Moment::START, &ann, slice::from_ref(&event)).ok()?;
    Some(receipt.unit.value())
}

fn main(rt: HostRuntime) -> io::Result<()> {
    let alloc = rt.alloc();
    let started = Instant::now(&rt)?;
    let Ok(mut store) = Store::open(alloc, FolderDisk::new(&rt), u64::MAX) else {
        return println!(&rt; "the journal wasn't opened");
    };
    let millis = started.elapsed(&rt)?.as_millis();
    println!(&rt; "  opened {} units in {millis} ms", store.units())?;
    let mut wanted = 0;
    for word in env::args(&rt)?.skip(1) {
        wanted = word.as_str().parse::<u64>().unwrap_or(0);
    }
    let started = Instant::now(&rt)?;
    for _commit in 0..wanted {
        if store.units() >= wanted || commit(alloc, &mut store).is_none() {
            break;
        }
    }
    let millis = started.elapsed(&rt)?.as_millis();
    println!(&rt; "  has {} units after {millis} ms", store.units())
}
END
(cd "$room/crates/measure" && rt run > "$room/log" 2>&1) || { cat "$room/log" >&2; exit 1; }

for count in "$@"; do
    rm -f "$disk/journal.sp"
    (cd "$disk" && "$room/crates/measure/out/measure" "$count" > "$room/told") || exit 1
    echo "$count units"
    tail -n 1 "$room/told"
    (cd "$disk" && command time -f '  resident: %M kB' "$room/crates/measure/out/measure" 0 2>&1 | grep -v has)
done

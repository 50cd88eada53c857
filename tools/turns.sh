#!/bin/bash
# Measures two million turns at a sum by 1, 2 and 4 passes of one turn cell, each in a thread, and beside them as many additions by as
# many threads under one `Mutex` of Rust's std.
#
#   tools/turns.sh [TIMES] [BUSY]
#
# Each is run TIMES times (5), and each run has one line: which of the two, how many passes or threads, seconds by the clock, and
# seconds of the processor. BUSY is how many processes that only count run beside it (0). The program that takes turns is made and
# proved first, in a folder of its own, from the crates cha_list and turn_cell as they stand here; that takes some minutes. It needs
# the kit and rustc.
set -eu
times=${1:-5}
busy=${2:-0}
here=$(cd "$(dirname "$0")/.." && pwd)
room=$(mktemp -d)
beside=()
trap 'for each in ${beside[@]+"${beside[@]}"}; do kill "$each"; done; rm -rf "$room"' EXIT
cp "$here/HANDLES" "$room"
for crate in cha_list turn_cell; do
    mkdir -p "$room/crates/$crate"
    for each in src specs proofs; do
        [ ! -d "$here/crates/$crate/$each" ] || cp -r "$here/crates/$crate/$each" "$room/crates/$crate"
    done
done
grep -E '^(cha_list|turn_cell)\b' "$here/crates.txt" > "$room/crates.txt"
echo 'turns may_wait=9: cha_list turn_cell' >> "$room/crates.txt"
program=$room/crates/turns
mkdir -p "$program/src" "$program/proofs/add" "$program/proofs/main"
cat > "$program/src/main.rt" << 'END'
//! Two million turns at a sum, by 1, 2 or 4 passes: `turns PASSES`.
#![tactic(auto)]

ghost use Rattle.std.specs.Prelude.{◌≡◌, ◌+◌, ◌^◌, ◌%◌};
ghost use Rattle.turn_cell.specs.Passes.{IsOf};

use std::env;
use std::process::ExitCode;
use std::sync::Wait;
use std::thread;
use std::thread::Threads;
use turn_cell::{Object, Pass, TurnCell};

/// A sum. A call adds a number, and the reply is the sum then.
struct Sum {
    total: u64,
}

impl Object for Sum {
    type Call = u64;

    type Reply = u64;

    ghost step = { λ old call reply new. (new.total ≡ (old.total + call) % 2 ^ 64) × (reply ≡ new.total) };

    fn apply(&mut self, call: u64) -> u64 {
        self.total = self.total.wrapping_add(call);
        self.total
    }
}

impl Drop for Sum {
    fn drop(self) {
        let Sum { total: _ } = self;
    }
}

/// Adds one so many times, and answers the last sum.
fn add<R: Wait>(rt: &R, cell: &TurnCell<Sum>, mut pass: Pass<Sum>, times: u32) -> u64
    requires { IsOf cell.now pass }
{
    let mut last = 0;
    for _ in 0..times {
        last = cell.turn(rt, &mut pass, 1);
    }
    last
}

fn main(rt: HostRuntime) -> ExitCode {
    let mut passes = 1;
    if let Ok(args) = env::args(&rt) {
        for word in args {
            match word.as_str() {
                "2" => passes = 2,
                "4" => passes = 4,
                _ => {}
            }
        }
    }
    let Ok((cell, mut first)) = TurnCell::new(rt.alloc(), Sum { total: 0 }) else {
        return ExitCode::from(1);
    };
    if passes == 1 {
        let last = add(&rt, &cell, first, 2_000_000);
        let _ = println!(rt; "{last}");
        return ExitCode::from(0);
    }
    let second = cell.split(&mut first);
    if passes == 2 {
        let (one, two) = thread::join(
            &rt,
            || add(&rt, &cell, first, 1_000_000),
            || add(&rt, &cell, second, 1_000_000),
        );
        let _ = println!(rt; "{}", one.max(two));
        return ExitCode::from(0);
    }
    let third = cell.split(&mut first);
    let fourth = cell.split(&mut first);
    let (one, two) = thread::join(
        &rt,
        || -> u64
            requires { IsOf cell first × IsOf cell second }
        {
            let (one, two) = thread::join(
                &rt,
                || add(&rt, &cell, first, 500_000),
                || add(&rt, &cell, second, 500_000),
            );
            one.max(two)
        },
        || -> u64
            requires { IsOf cell third × IsOf cell fourth }
        {
            let (one, two) = thread::join(
                &rt,
                || add(&rt, &cell, third, 500_000),
                || add(&rt, &cell, fourth, 500_000),
            );
            one.max(two)
        },
    );
    let _ = println!(rt; "{}", one.max(two));
    ExitCode::from(0)
}
END
cat > "$program/proofs/add/Invariants.antt" << 'END'
use Rattle.turn_cell.specs.Passes.{IsOf}
use Rattle.turns.proofs.add.Given as goal

abbrev pub invariant-loop : goal.invariant-loop
invariant-loop g l = IsOf l.cell l.pass
END

# sent PLACE GOAL..: the answers to goals that closures may go to other threads
sent() {
    mkdir -p "$program/proofs/$1"
    {
        echo 'use denote.Param.Send.{sendable}'
        echo 'use Rattle.std.proofs.Crossing.{crosses}'
        echo 'use Rattle.turn_cell.proofs.Sending.{pass_send, cell_sync}'
        echo "use Rattle.turns.proofs.${1//\//.}.Goals as goal"
        for goal in "${@:2}"; do
            printf '\npub %s : goal.%s\n%s g c κs within = search (sendable, crosses, pass_send, cell_sync) depth 20\n' "$goal" "$goal" "$goal"
        done
    } > "$program/proofs/$1/Answers.antt"
}
sent main join-one-requires-send-F join-one-requires-2-send-F
sent fn/main/join+arg2+2 join-one-requires-send-F
sent fn/main/join+arg3+2 join-one-requires-send-F
cat > "$room/mutex.rs" << 'END'
use std::sync::Mutex;
use std::thread;

fn add(total: &Mutex<u64>, times: u64) {
    for _ in 0..times {
        *total.lock().unwrap() += 1;
    }
}

fn main() {
    let threads: u64 = std::env::args().nth(1).map_or(1, |it| it.parse().unwrap());
    let total = Mutex::new(0);
    thread::scope(|scope| {
        for _ in 1..threads {
            scope.spawn(|| add(&total, 2_000_000 / threads));
        }
        add(&total, 2_000_000 / threads);
    });
    println!("{}", total.lock().unwrap());
}
END
rustc --edition 2021 -O -o "$room/mutex" "$room/mutex.rs"
(cd "$program" && rt run -- 1 > "$room/said" 2>&1) || { cat "$room/said" >&2; exit 1; }
for ((each = 0; each < busy; each++)); do
    (while :; do :; done) &
    beside+=($!)
done
TIMEFORMAT='%R %U'
for count in 1 2 4; do
    for ((each = 0; each < times; each++)); do
        printf 'turns %d ' "$count"
        time "$program/out/turns" "$count" > /dev/null
        printf 'mutex %d ' "$count"
        time "$room/mutex" "$count" > /dev/null
    done 2>&1
done

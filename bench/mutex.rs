//! The same events as `flow_bench` appends, into a plain list behind one lock: `mutex THREADS COMMITS PARTIES`.
use std::sync::Mutex;

#[allow(dead_code)]
#[derive(Clone, Copy)]
enum Party {
    Node(u32),
    Caller(u32),
}

#[allow(dead_code)]
#[derive(Clone, Copy)]
enum Move {
    Alone {
        party: Party,
        turn: u64,
    },
    Both {
        node: u32,
        node_turn: u64,
        caller: u32,
        caller_turn: u64,
    },
}

fn main() {
    let mut args = std::env::args().skip(1);
    let mut number = || args.next().and_then(|word| word.parse::<u64>().ok()).unwrap_or(1);
    let (threads, commits, parties) = (number().min(4), number(), number());
    let journal: Mutex<Vec<Move>> = Mutex::new(Vec::new());
    std::thread::scope(|scope| {
        for k in 0..threads as u32 {
            let journal = &journal;
            scope.spawn(move || {
                for turn in 0..commits {
                    let event = if parties > 1 {
                        Move::Both { node: k, node_turn: turn, caller: k, caller_turn: turn }
                    } else {
                        Move::Alone { party: Party::Node(k), turn }
                    };
                    journal.lock().unwrap().push(event);
                }
            });
        }
    });
    println!("{}", journal.lock().unwrap().len());
}

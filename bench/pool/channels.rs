// The pool's work by threads and the channels of Rust's standard library alone. Each line of standard input is a number of
// threads, who serve 1,024 lanes of 1,000 requests each. A lane is a bounded channel of requests and one of answers; those that
// are still to be served stand in a channel too, which all threads take from. What the serving takes is printed, with the sum
// of the lanes' last answers.
use std::io::{stdin, BufRead};
use std::sync::mpsc::{channel, sync_channel, Receiver, Sender, SyncSender, TryRecvError};
use std::sync::Mutex;
use std::thread;
use std::time::Instant;

const LANES: usize = 1024;
const REQUESTS: u64 = 1000;
const STEPS: u64 = 200;
const MOST_A_TURN: u32 = 64;

struct Lane {
    requests: Receiver<u64>,
    answers: SyncSender<(u64, u64)>,
    state: u64,
}

fn mix(first: u64, steps: u64) -> u64 {
    let mut value = first;
    for _ in 0..steps {
        value = (value * 48271 + 11) % 2147483647;
    }
    value
}

fn step(state: &mut u64, request: u64, steps: u64) -> u64 {
    *state = mix((*state % 1000000 + request % 1000000) % 2147483647, steps);
    *state
}

// Serves a lane for one turn, and gives it back if there may be more to do.
fn serve(mut lane: Lane, steps: u64) -> Option<Lane> {
    for _ in 0..MOST_A_TURN {
        match lane.requests.try_recv() {
            Ok(request) => {
                let answer = step(&mut lane.state, request, steps);
                lane.answers.send((request, answer)).expect("the answers are collected");
            }
            Err(TryRecvError::Empty) => {
                thread::yield_now();
                return Some(lane);
            }
            Err(TryRecvError::Disconnected) => return None,
        }
    }
    Some(lane)
}

// Takes, serves and puts back, until there is nothing to take.
fn work(taken: &Mutex<Receiver<Lane>>, put: Sender<Lane>, steps: u64) {
    loop {
        let next = taken.lock().expect("no thread panics").try_recv();
        let Ok(lane) = next else { return };
        if let Some(lane) = serve(lane, steps) {
            put.send(lane).expect("the queue stays open");
        }
    }
}

fn last(answers: &Receiver<(u64, u64)>) -> u64 {
    (0..REQUESTS).fold(0, |_, number| answers.try_recv().map_or(0, |(request, answer)| if request == number { answer } else { 0 }))
}

fn time(threads: usize, steps: u64) -> (u128, u64) {
    let (put, queue) = channel();
    let mut collected = Vec::with_capacity(LANES);
    for _ in 0..LANES {
        let (send, requests) = sync_channel(1024);
        let (answers, answered) = sync_channel(1024);
        (0..REQUESTS).for_each(|request| send.send(request).expect("there is room"));
        put.send(Lane { requests, answers, state: 1 }).expect("the queue is open");
        collected.push(answered);
    }
    let taken = Mutex::new(queue);
    let start = Instant::now();
    thread::scope(|scope| {
        for _ in 1..threads {
            let put = put.clone();
            scope.spawn(|| work(&taken, put, steps));
        }
        work(&taken, put.clone(), steps);
    });
    let elapsed = start.elapsed().as_nanos();
    (elapsed, collected.iter().map(last).sum())
}

fn main() {
    for line in stdin().lock().lines() {
        let threads = line.expect("a line").parse().expect("a number");
        let (taken, sum) = time(threads, std::hint::black_box(STEPS));
        println!("{threads} {taken} {sum}");
    }
}

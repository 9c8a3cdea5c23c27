// Requests and answers through two bounded channels of std: one thread sends and collects, another answers.
use std::sync::mpsc::{sync_channel, Receiver, SyncSender, TryRecvError, TrySendError};
use std::thread;
use std::time::Instant;

const REQUESTS: u64 = 1_000_000;
const BURST: u64 = 64;

fn serve(requests: Receiver<u64>, answers: SyncSender<(u64, u64)>) -> u64 {
    let mut state = 0;
    while let Ok(request) = requests.recv() {
        state = (state % 1000 + request % 1000) % 1000;
        if answers.send((request, state)).is_err() {
            break;
        }
    }
    state
}

// The owner never waits, as a lane's: it sends while there is room, collects what is there, and yields where neither went.
fn feed(requests: &SyncSender<u64>, answers: &Receiver<(u64, u64)>, capacity: u64) -> u64 {
    let (mut sent, mut got, mut last) = (0, 0, 0);
    while got < REQUESTS {
        let mut idle = true;
        if sent < REQUESTS && sent - got < capacity {
            match requests.try_send(sent) {
                Ok(()) => {
                    sent += 1;
                    idle = false;
                }
                Err(TrySendError::Full(_)) => {}
                Err(TrySendError::Disconnected(_)) => break,
            }
        }
        match answers.try_recv() {
            Ok((request, answer)) => {
                assert_eq!(request, got);
                got += 1;
                last = answer;
                idle = false;
            }
            Err(TryRecvError::Empty) => {}
            Err(TryRecvError::Disconnected) => break,
        }
        if idle {
            thread::yield_now();
        }
    }
    last
}

// The same, in bursts: it sends until it is refused, at most 64, and then collects until nothing is there.
fn feed_in_bursts(requests: &SyncSender<u64>, answers: &Receiver<(u64, u64)>, capacity: u64) -> u64 {
    let (mut sent, mut got, mut last) = (0, 0, 0);
    while got < REQUESTS {
        let before = (sent, got);
        for _ in 0..BURST {
            if sent >= REQUESTS || sent - got >= capacity || requests.try_send(sent).is_err() {
                break;
            }
            sent += 1;
        }
        while let Ok((request, answer)) = answers.try_recv() {
            assert_eq!(request, got);
            got += 1;
            last = answer;
        }
        if before == (sent, got) {
            thread::yield_now();
        }
    }
    last
}

fn main() {
    for (name, bursts, capacity) in [false, true].into_iter().flat_map(|b| [1u64, 16, 1024].map(|c| (if b { "bursts" } else { "single" }, b, c))) {
        let start = Instant::now();
        let (requests, inbox) = sync_channel(capacity as usize);
        let (outbox, answers) = sync_channel(capacity as usize);
        let server = thread::spawn(move || serve(inbox, outbox));
        let last = if bursts { feed_in_bursts(&requests, &answers, capacity) } else { feed(&requests, &answers, capacity) };
        drop(requests);
        assert_eq!(server.join().unwrap(), last);
        println!("{name} {capacity} {}", start.elapsed().as_nanos());
    }
}

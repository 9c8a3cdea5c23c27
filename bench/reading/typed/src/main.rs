//! Reads a job of file requests by `serde_json` into types that borrow its texts, and prints how many requests it has.

use serde::Deserialize;
use std::borrow::Cow;
use std::io::{self, Read};

#[derive(Deserialize)]
struct Job<'a> {
    #[serde(borrow)]
    policy: Cow<'a, str>,
    tasks: Vec<Task<'a>>,
}

#[derive(Deserialize)]
struct Task<'a> {
    #[serde(borrow)]
    label: Cow<'a, str>,
    requests: Vec<Request<'a>>,
}

#[derive(Deserialize)]
struct Request<'a> {
    #[serde(borrow)]
    file: Cow<'a, str>,
    mask: Cow<'a, str>,
}

fn main() -> io::Result<()> {
    let mut text = Vec::new();
    io::stdin().read_to_end(&mut text)?;
    let job: Job = serde_json::from_slice(&text)?;
    let bytes = |task: &Task| task.label.len() + task.requests.iter().map(|it| it.file.len() + it.mask.len()).sum::<usize>();
    let requests: usize = job.tasks.iter().map(|task| task.requests.len()).sum();
    println!("{requests} {}", job.policy.len() + job.tasks.iter().map(bytes).sum::<usize>());
    Ok(())
}

//! A fixpoint: which points of a graph are connected. Each point has a label, at first its own number. A task is a
//! point whose label fell: it lowers the labels of its neighbours to its own, and gives those whose label fell. When
//! nothing is left to do, each point has the least number of those that it is connected with, whatever the order was.
//!
//! The number of points is an argument, 20,000 where it is left out. The labels are compared with those of one thread.
use kfifo::work::{self, Options, RunError};
use std::process::ExitCode;
use std::sync::atomic::{AtomicU32, Ordering};

/// The neighbours of each point.
type Graph = Vec<Vec<u32>>;

/// A graph of so many points and about as many lines, drawn by a generator that is the same each time.
fn draw(points: u32) -> Graph {
    let mut graph = vec![Vec::new(); points as usize];
    let mut state = 1_u64;
    let mut next = || {
        state = state
            .wrapping_mul(6_364_136_223_846_793_005)
            .wrapping_add(1);
        ((state >> 33) % u64::from(points)) as u32
    };
    for _ in 0..points * 9 / 10 {
        let (one, other) = (next(), next());
        graph[one as usize].push(other);
        graph[other as usize].push(one);
    }
    graph
}

/// The labels by one thread: all points that a point reaches get its number, unless a smaller one reached them.
fn plain_labels(graph: &Graph) -> Vec<u32> {
    let mut labels = vec![u32::MAX; graph.len()];
    for first in 0..graph.len() {
        let mut open = vec![first];
        while let Some(point) = open.pop() {
            if labels[point] == u32::MAX {
                labels[point] = first as u32;
                open.extend(graph[point].iter().map(|it| *it as usize));
            }
        }
    }
    labels
}

/// The labels by all processors.
fn labels(graph: &Graph) -> Result<Vec<u32>, RunError<u32>> {
    let points = graph.len() as u32;
    let labels: Vec<_> = (0..points).map(AtomicU32::new).collect();
    let report = work::run(
        0..points,
        |point, more| {
            let label = labels[point as usize].load(Ordering::Relaxed);
            for neighbour in &graph[point as usize] {
                if labels[*neighbour as usize].fetch_min(label, Ordering::Relaxed) > label {
                    more.give(*neighbour).expect("there is memory");
                }
            }
        },
        Options::default(),
    )?;
    let tasks: u64 = report.done.iter().sum();
    println!("{tasks} tasks, {} waited at most", report.backlog);
    Ok(labels.into_iter().map(AtomicU32::into_inner).collect())
}

fn main() -> Result<ExitCode, String> {
    let points = std::env::args().nth(1).map_or(Ok(20_000), |it| it.parse());
    let Ok(points @ 1..=100_000_000) = points else {
        eprintln!("usage: fixpoint [POINTS], 1 to 100,000,000");
        return Ok(ExitCode::from(2));
    };
    let graph = draw(points);
    let labels = labels(&graph).map_err(|ended| ended.to_string())?;
    let parts = (0..points).filter(|it| labels[*it as usize] == *it).count();
    println!("{points} points in {parts} parts");
    let is_right = labels == plain_labels(&graph);
    if !is_right {
        eprintln!("the labels are not those of one thread");
    }
    Ok(ExitCode::from(u8::from(!is_right)))
}

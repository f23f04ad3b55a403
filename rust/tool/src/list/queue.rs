//! Work on many files at a time, with the results in the files' order and never more than a few of them in memory.
use std::ffi::{OsStr, OsString};
use std::io;
use std::sync::mpsc::{sync_channel, Receiver, SyncSender};
use std::thread;

/// So many files are worked on and handed over together: handing over costs more than reading a short file.
const BATCH: usize = 32;
/// So many batches may a worker be ahead of the one that is shown.
const AHEAD: usize = 2;

/// Does `work` on each file, `jobs` at a time, and gives the results to `show`, batch by batch in the files' order. If `show` fails, or a
/// worker cannot be started (`no_worker`), all work ends and the failure is given. Each worker has memory of its own, which `memory` makes.
pub fn in_order<M, R: Send, E>(
    files: &[OsString],
    jobs: usize,
    memory: impl Fn() -> M + Sync,
    work: impl Fn(&mut M, &OsStr) -> R + Sync,
    no_worker: impl Fn(io::Error) -> E,
    mut show: impl FnMut(Vec<R>) -> Result<(), E>,
) -> Result<(), E> {
    let batch = batch_for(files.len(), jobs);
    let workers = jobs.min(files.len().div_ceil(batch));
    let (memory, work) = (&memory, &work);
    thread::scope(|scope| {
        let mut receivers: Vec<Receiver<Vec<R>>> = Vec::new();
        // Worker w does batches w, w + workers and so on: then the next batch's channel is known.
        for first in 0..workers {
            let (sender, receiver) = sync_channel(AHEAD);
            let batches = files.chunks(batch).skip(first).step_by(workers);
            let started = thread::Builder::new().spawn_scoped(scope, move || do_batches(batches, memory(), work, &sender));
            started.map_err(&no_worker)?;
            receivers.push(receiver);
        }
        for at in 0..files.len().div_ceil(batch) {
            let results = receivers[at % workers].recv().expect("a worker ends only when all its batches are sent");
            // the receivers go with a failure, and so the workers stop
            show(results)?;
        }
        Ok(())
    })
}

/// Few files are shared out one by one.
fn batch_for(files: usize, jobs: usize) -> usize {
    (files / jobs).clamp(1, BATCH)
}

fn do_batches<'f, M, R>(
    batches: impl Iterator<Item = &'f [OsString]>,
    mut memory: M,
    work: &impl Fn(&mut M, &OsStr) -> R,
    sender: &SyncSender<Vec<R>>,
) {
    for batch in batches {
        let results = batch.iter().map(|file| work(&mut memory, file)).collect();
        if sender.send(results).is_err() {
            return;
        }
    }
}

#[cfg(test)]
mod tests {
    use super::in_order;
    use std::ffi::OsString;

    #[test]
    fn results_come_in_order_whatever_the_number_of_workers() {
        let files: Vec<OsString> = (0..1000).map(|n| n.to_string().into()).collect();
        for jobs in [1, 2, 3, 7, 1000, 5000] {
            let mut shown = Vec::new();
            let ended: Result<(), ()> = in_order(
                &files,
                jobs,
                || (),
                |_, file| file.to_os_string(),
                |_| (),
                |batch| {
                    shown.extend(batch);
                    Ok(())
                },
            );
            assert_eq!((ended, &shown), (Ok(()), &files), "{jobs} jobs");
        }
    }

    #[test]
    fn a_failure_ends_all_work() {
        let files: Vec<OsString> = (0..100_000).map(|n| n.to_string().into()).collect();
        let mut shown = 0;
        let ended = in_order(
            &files,
            3,
            || (),
            |_, _| (),
            |_| "no worker",
            |batch| {
                shown += batch.len();
                if shown > 100 {
                    Err("full")
                } else {
                    Ok(())
                }
            },
        );
        assert_eq!(ended, Err("full"));
        assert!(shown < 200);
    }
}

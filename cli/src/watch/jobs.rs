//! Blocks looked at by several threads; what was seen comes back in the order of the trace.
use super::block::{Block, Look, Seen};
use std::collections::VecDeque;
use std::sync::mpsc::{channel, Receiver, Sender};
use std::thread;

/// A thread that looks at blocks.
struct Worker {
    blocks: Sender<Block>,
    seen: Receiver<Seen>,
}

/// A thread ended before it answered.
#[derive(Debug)]
pub(super) struct Lost;

/// The threads; with none of them blocks are looked at where they are put.
pub(super) struct Jobs {
    look: Look,
    idle: Vec<Worker>,
    /// Each has one block, the earliest first: no more blocks than threads are in memory.
    busy: VecDeque<Worker>,
}

impl Jobs {
    /// So many threads; fewer where the system gives no more, since the answer is the same.
    pub(super) fn new(look: Look, threads: u64) -> Jobs {
        let mut idle = Vec::new();
        if threads > 1 {
            idle.extend((0..threads).map_while(|_| Worker::start(look.clone())));
        }
        Jobs {
            look,
            idle,
            busy: VecDeque::new(),
        }
    }

    /// Hands over a block, and hands back what was seen in the earliest one if a thread had to be waited for.
    pub(super) fn put(&mut self, block: Block) -> Result<Option<Seen>, Lost> {
        if let Some(worker) = self.idle.pop() {
            self.hand(worker, block)?;
            return Ok(None);
        }
        match self.busy.pop_front() {
            None => Ok(Some(self.look.over(&block))),
            Some(worker) => {
                let seen = worker.seen.recv().map_err(|_| Lost)?;
                self.hand(worker, block)?;
                Ok(Some(seen))
            }
        }
    }

    fn hand(&mut self, worker: Worker, block: Block) -> Result<(), Lost> {
        worker.blocks.send(block).map_err(|_| Lost)?;
        self.busy.push_back(worker);
        Ok(())
    }

    /// What was seen in the earliest block that is not handed back yet.
    pub(super) fn take(&mut self) -> Result<Option<Seen>, Lost> {
        match self.busy.pop_front() {
            None => Ok(None),
            Some(worker) => {
                let seen = worker.seen.recv().map_err(|_| Lost)?;
                self.idle.push(worker);
                Ok(Some(seen))
            }
        }
    }
}

impl Worker {
    fn start(look: Look) -> Option<Worker> {
        let (blocks, given) = channel::<Block>();
        let (answer, seen) = channel();
        let work = move || {
            for block in given {
                if answer.send(look.over(&block)).is_err() {
                    break;
                }
            }
        };
        thread::Builder::new().spawn(work).ok()?;
        Some(Worker { blocks, seen })
    }
}

//! Threads that read, write and sync the disk, if the kernel has no rings for that.

use crate::engine::{Done, Job, System, What};
use crate::system::{self, Counter};
use std::collections::VecDeque;
use std::fs::File;
use std::io;
use std::mem;
use std::os::fd::BorrowedFd;
use std::sync::{Arc, Condvar, Mutex, MutexGuard, PoisonError};
use std::thread;

// So many threads at most.
const MOST: usize = 64;

// What the threads share.
struct Shared {
    file: Arc<File>,
    todo: Mutex<Todo>,
    has_some: Condvar,
    done: Mutex<VecDeque<Done>>,
    // It can be read as long as something is done.
    has_done: Counter,
}

#[derive(Default)]
struct Todo {
    jobs: VecDeque<(usize, Job)>,
    // How many threads wait for one.
    idle: usize,
    ends: bool,
}

pub struct Threads {
    shared: Arc<Shared>,
    count: usize,
    // What was not told to the threads, and what they did.
    begun: Vec<(usize, Job)>,
    done: VecDeque<Done>,
}

fn locked<T>(mutex: &Mutex<T>) -> MutexGuard<'_, T> {
    mutex.lock().unwrap_or_else(PoisonError::into_inner)
}

impl Threads {
    /// Starts one. Others follow as they are needed.
    pub fn new(file: Arc<File>) -> io::Result<Threads> {
        let shared = Arc::new(Shared {
            file,
            todo: Mutex::default(),
            has_some: Condvar::new(),
            done: Mutex::default(),
            has_done: Counter::new()?,
        });
        let mut threads = Threads {
            shared,
            count: 0,
            begun: Vec::new(),
            done: VecDeque::new(),
        };
        threads.add()?;
        Ok(threads)
    }

    fn add(&mut self) -> io::Result<()> {
        let shared = Arc::clone(&self.shared);
        let builder = thread::Builder::new().name("disk".into());
        builder.spawn(move || shared.work())?;
        self.count += 1;
        Ok(())
    }
}

impl Shared {
    fn work(&self) {
        while let Some((number, job)) = self.next() {
            let done = self.serve(&job);
            let mut all = locked(&self.done);
            if all.is_empty() {
                self.has_done.count();
            }
            all.push_back((number, job, done));
        }
    }

    fn next(&self) -> Option<(usize, Job)> {
        let mut todo = locked(&self.todo);
        loop {
            if todo.ends {
                return None;
            }
            if let Some(it) = todo.jobs.pop_front() {
                return Some(it);
            }
            todo.idle += 1;
            todo = self.has_some.wait(todo).unwrap_or_else(PoisonError::into_inner);
            todo.idle -= 1;
        }
    }

    fn serve(&self, job: &Job) -> io::Result<usize> {
        match job.what {
            What::Read => system::read(&self.file, &job.vectors, job.from, job.place),
            What::Write => system::write(&self.file, &job.vectors, job.from, job.place),
            What::Sync => self.file.sync_data().map(|()| 0),
        }
    }
}

impl System for Threads {
    fn now(&self, job: &Job) -> io::Result<usize> {
        system::now(&self.shared.file, job)
    }

    fn begin(&mut self, number: usize, job: Job) {
        self.begun.push((number, job));
    }

    fn submit(&mut self) -> io::Result<bool> {
        if self.begun.is_empty() {
            return Ok(true);
        }
        let mut todo = locked(&self.shared.todo);
        todo.jobs.extend(self.begun.drain(..));
        let (jobs, idle) = (todo.jobs.len(), todo.idle);
        drop(todo);
        (0..jobs.min(idle)).for_each(|_| self.shared.has_some.notify_one());
        for _ in idle..jobs {
            // Without one more those that are there serve it.
            if self.count == MOST || self.add().is_err() {
                break;
            }
        }
        Ok(true)
    }

    fn take(&mut self) -> Option<Done> {
        if self.done.is_empty() {
            let mut all = locked(&self.shared.done);
            if !all.is_empty() {
                self.shared.has_done.clear();
                mem::swap(&mut *all, &mut self.done);
            }
        }
        self.done.pop_front()
    }

    fn room(&self) -> usize {
        MOST
    }

    fn descriptor(&self) -> BorrowedFd<'_> {
        self.shared.has_done.descriptor()
    }
}

impl Drop for Threads {
    // What is under way is not waited for: it may never end.
    fn drop(&mut self) {
        let mut todo = locked(&self.shared.todo);
        todo.ends = true;
        todo.jobs.clear();
        drop(todo);
        self.shared.has_some.notify_all();
    }
}

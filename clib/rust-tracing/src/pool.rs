//! Producers that are lent to threads.
use std::cell::RefCell;
use std::collections::VecDeque;
use std::sync::{Arc, Mutex, MutexGuard, PoisonError};
use tracerd::{Producer, Refused, Session};

extern "C" {
    fn gettid() -> i32;
}

/// What a lock guards here is whole after each step, so a thread that panicked has left it so.
fn locked<T>(of: &Mutex<T>) -> MutexGuard<'_, T> {
    of.lock().unwrap_or_else(PoisonError::into_inner)
}

/// A fixed number of producers. A thread is lent one at its first record, and gives it back when it ends; the one that has been
/// free longest is lent first, so that what an ended thread did stays in its ring as long as it can.
pub(crate) struct Pool {
    /// None of them is there once the pool is closed.
    producers: Vec<Mutex<Option<Producer>>>,
    free: Mutex<VecDeque<usize>>,
}

/// Which producer a thread records by.
#[derive(Clone, Copy)]
pub(crate) struct Lent {
    place: usize,
    /// The thread's number in the kernel.
    pub(crate) thread: u32,
    /// Whether the stream has the thread's name.
    pub(crate) is_named: bool,
}

/// A thread's own of one pool.
struct Mine {
    pool: Arc<Pool>,
    lent: Lent,
    /// Else the thread shares it: there was none free.
    is_own: bool,
}

impl Drop for Mine {
    fn drop(&mut self) {
        if self.is_own {
            locked(&self.pool.free).push_back(self.lent.place);
        }
    }
}

// (a thread may record into several sessions)
thread_local! {
    static MINE: RefCell<Vec<Mine>> = const { RefCell::new(Vec::new()) };
}

impl Pool {
    pub(crate) fn new(session: &Session, channel: &str, count: usize) -> Result<Arc<Pool>, Refused> {
        let count = count.max(1);
        let made = (0..count).map(|_| Ok(Mutex::new(Some(session.producer(channel)?))));
        Ok(Arc::new(Pool { producers: made.collect::<Result<_, _>>()?, free: Mutex::new((0..count).collect()) }))
    }

    /// Of the thread that calls; while it ends, and its own values are gone, it shares the first one.
    pub(crate) fn lent(self: &Arc<Self>) -> Lent {
        let found = MINE.try_with(|mine| self.lent_of(&mut mine.borrow_mut()));
        found.unwrap_or_else(|_| Lent { place: 0, thread: thread_number(), is_named: true })
    }

    /// The stream has the name of the thread that calls.
    pub(crate) fn set_named(self: &Arc<Self>) {
        let _ = MINE.try_with(|mine| {
            let mut mine = mine.borrow_mut();
            let found = mine.iter_mut().find(|it| Arc::ptr_eq(&it.pool, self));
            found.map(|it| it.lent.is_named = true)
        });
    }

    fn lent_of(self: &Arc<Self>, mine: &mut Vec<Mine>) -> Lent {
        if let Some(it) = mine.iter().find(|it| Arc::ptr_eq(&it.pool, self)) {
            return it.lent;
        }
        let (thread, free) = (thread_number(), locked(&self.free).pop_front());
        // (else it shares)
        let place = free.unwrap_or(thread as usize % self.producers.len());
        let lent = Lent { place, thread, is_named: false };
        mine.push(Mine { pool: self.clone(), lent, is_own: free.is_some() });
        lent
    }

    /// Calls with the producer, unless the pool is closed or offers aren't taken now. The call may not record by itself.
    pub(crate) fn with(&self, lent: Lent, call: impl FnOnce(&mut Producer)) {
        if let Some(producer) = locked(&self.producers[lent.place]).as_mut().and_then(Producer::if_active) {
            call(producer);
        }
    }

    pub(crate) fn is_active(&self, lent: Lent) -> bool {
        locked(&self.producers[lent.place]).as_ref().is_some_and(Producer::is_active)
    }

    pub(crate) fn close(&self) {
        self.producers.iter().for_each(|it| drop(locked(it).take()));
    }
}

fn thread_number() -> u32 {
    // (a thread's number is above 0)
    unsafe { gettid() }.unsigned_abs()
}

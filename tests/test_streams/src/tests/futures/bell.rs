ghost use Rattle.std.specs.Prelude.{◌≡◌};
ghost use Rattle.futures.specs.Task.{Lasting};
ghost use Rattle.test_streams.specs.Bell.{Rings, rings_laws};

use futures::task::{Source, Waker};
use futures_lite::{Context, Future, Poll};
use std::alloc::{AllocError, Global};
use std::sync::{Arc, Mutex, Wait};

/// A future that registers at a source of its own, and is ready once the bell was rung, or rung as often as it has to be.
#[derive(Drop)]
pub(super) struct Bell {
    shared: Arc<Shared>,
}

#[derive(Drop)]
struct Shared {
    source: Source,
    state: Mutex<State>,
}

#[derive(Drop)]
struct State {
    /// How often it still has to be rung.
    left: u32,
    waiting: Option<Waker>,
}

impl Bell {
    pub(super) fn new(alloc: Global) -> Result<Bell, AllocError> {
        Bell::after(alloc, 1)
    }

    /// One that has to be rung so often.
    pub(super) fn after(alloc: Global, rings: u32) -> Result<Bell, AllocError> {
        let state = State {
            left: rings,
            waiting: None,
        };
        let shared = Shared {
            source: Source::new(),
            state: Mutex::new(state),
        };
        Ok(Bell {
            shared: Arc::new(alloc, shared)?,
        })
    }

    /// The same bell.
    pub(super) fn other(&self) -> Result<Bell, AllocError> {
        Ok(Bell {
            shared: Arc::try_clone(&self.shared)?,
        })
    }

    /// Wakes what waits for it, and makes it ready where it was rung often enough.
    pub(super) fn ring<R: Wait>(&self, rt: &R) {
        let mut state = self.shared.state.lock(rt);
        state.left = state.left.saturating_sub(1);
        let waiting = state.waiting.take();
        // A poll that finds the lock taken yields, so the task is woken once the lock is free.
        drop(state);
        drop(waiting);
    }

    /// Rings each time that something waits for it, until it is ready.
    pub(super) fn ring_when_waited_for<R: Wait>(&self, rt: &R) {
        for _ in rt.forever() {
            let is_waited_for = self.shared.state.lock(rt).waiting.is_some();
            if is_waited_for {
                self.ring(rt);
            }
            if self.shared.state.lock(rt).left == 0 {
                return;
            }
        }
    }
}

impl Future for Bell {
    type Output = Result<(), ()>;

    ghost run = { Rings };

    ghost registers = { λ _ fact. fact ≡ Lasting.armed };

    ghost laws = { rings_laws };

    fn poll(&mut self, cx: &mut Context<'_>) -> Poll<Result<(), ()>> {
        let Some(mut guard) = self.shared.state.try_lock() else {
            return cx.yield_now();
        };
        let state = &mut *guard;
        if state.left == 0 {
            return Poll::Ready(Ok(()));
        }
        cx.register(&self.shared.source, &mut state.waiting)
    }
}

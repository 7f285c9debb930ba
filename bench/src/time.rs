//! Timing: the best of many rounds. Calls that are compared are timed in turn, so that a slow moment of the machine meets them all.
use std::time::{Duration, Instant};

/// How long each call is measured, at least, and about how long in one round.
const BUDGET: Duration = Duration::from_millis(100);
const ROUND_NS: f64 = 200_000.0;

/// Something that is timed in rounds, and keeps its best.
trait Timed {
    fn round(&mut self);
}

/// Rounds of all of them, at least one.
fn rounds(all: &mut [&mut dyn Timed]) {
    let (started, budget) = (Instant::now(), BUDGET * all.len() as u32);
    loop {
        all.iter_mut().for_each(|timed| timed.round());
        if started.elapsed() >= budget {
            return;
        }
    }
}

/// A call: how often it is done in a round, and the best ns of one.
struct Call<F> {
    call: F,
    batch: u32,
    best: f64,
}

impl<F: FnMut()> Call<F> {
    /// The first calls, which are slow, are left out.
    fn new(mut call: F) -> Call<F> {
        let started = Instant::now();
        let mut one = once(&mut call);
        for _ in 0..20 {
            if started.elapsed() < BUDGET {
                one = one.min(once(&mut call));
            }
        }
        Call { call, batch: (ROUND_NS / one.max(1.0)).clamp(1.0, 20_000.0) as u32, best: f64::MAX }
    }
}

impl<F: FnMut()> Timed for Call<F> {
    fn round(&mut self) {
        let began = Instant::now();
        for _ in 0..self.batch {
            (self.call)();
        }
        self.best = self.best.min(began.elapsed().as_nanos() as f64 / f64::from(self.batch));
    }
}

/// Two calls on something that undo each other, timed each alone, and the best ns of each.
struct Pair<'a, T, F, G> {
    on: &'a mut T,
    calls: (F, G),
    best: (f64, f64),
}

impl<T, F: FnMut(&mut T), G: FnMut(&mut T)> Timed for Pair<'_, T, F, G> {
    fn round(&mut self) {
        let began = Instant::now();
        while (began.elapsed().as_nanos() as f64) < ROUND_NS {
            self.best.0 = self.best.0.min(once(|| (self.calls.0)(self.on)));
            self.best.1 = self.best.1.min(once(|| (self.calls.1)(self.on)));
        }
    }
}

/// The best ns of a call.
pub fn best(call: impl FnMut()) -> f64 {
    let mut call = Call::new(call);
    rounds(&mut [&mut call]);
    call.best
}

/// What one call took, in ns: ours, which checks the message each time; the original's bare call; and `try_from` and the call.
#[derive(Clone, Copy)]
pub struct Times {
    pub ours: f64,
    pub bare: f64,
    pub checked: f64,
}

impl Times {
    /// The best ns of three calls.
    pub fn of(ours: impl FnMut(), bare: impl FnMut(), checked: impl FnMut()) -> Times {
        let (mut ours, mut bare, mut checked) = (Call::new(ours), Call::new(bare), Call::new(checked));
        rounds(&mut [&mut ours, &mut bare, &mut checked]);
        Times { ours: ours.best, bare: bare.best, checked: checked.best }
    }

    /// Without parts of ours and of the original's; a difference that is lost in the noise is 1 ns.
    pub fn less(self, ours: f64, original: f64) -> Times {
        Times { ours: less(self.ours, ours), bare: less(self.bare, original), checked: less(self.checked, original) }
    }

    /// The best ns of two calls that undo each other, done in turn and timed each alone, less what reading the clock takes. Each is given
    /// for ours, for the original's bare call, and for that with `try_from`.
    pub fn in_turn<T, U>(
        (ours, our_calls): (&mut T, (impl FnMut(&mut T), impl FnMut(&mut T))),
        (bare, bare_calls): (&mut U, (impl FnMut(&mut U), impl FnMut(&mut U))),
        (checked, checked_calls): (&mut U, (impl FnMut(&mut U), impl FnMut(&mut U))),
    ) -> (Times, Times) {
        let clock = (0..10_000).map(|_| once(|| ())).fold(f64::MAX, f64::min);
        let mut ours = Pair { on: ours, calls: our_calls, best: (f64::MAX, f64::MAX) };
        let mut bare = Pair { on: bare, calls: bare_calls, best: (f64::MAX, f64::MAX) };
        let mut checked = Pair { on: checked, calls: checked_calls, best: (f64::MAX, f64::MAX) };
        rounds(&mut [&mut ours, &mut bare, &mut checked]);
        let first = Times { ours: ours.best.0, bare: bare.best.0, checked: checked.best.0 };
        let second = Times { ours: ours.best.1, bare: bare.best.1, checked: checked.best.1 };
        (first.less(clock, clock), second.less(clock, clock))
    }
}

/// A time without a part of it; a difference that is lost in the noise is 1 ns.
pub fn less(time: f64, part: f64) -> f64 {
    (time - part).max(1.0)
}

/// The ns of one call.
fn once(call: impl FnOnce()) -> f64 {
    let began = Instant::now();
    call();
    began.elapsed().as_nanos() as f64
}

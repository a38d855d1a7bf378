//! How long and with how much memory to look.

use std::time::{Duration, Instant};

use crate::counted;

/// Why looking ends before it is decided.
#[derive(Clone, Debug, PartialEq, Eq)]
pub enum Stop {
    /// The time is up.
    Time,
    /// The memory is used up.
    Memory,
    /// The conflicts that may be met are.
    Conflicts,
    /// The solver cannot be run, or does not answer as solvers do.
    Solver(String),
}

/// What looking may take.
#[derive(Clone, Debug)]
pub struct Limits {
    until: Instant,
    most_bytes: usize,
    conflicts: u64,
}

impl Limits {
    /// So long from now on, and so many bytes. Conflicts are not bounded.
    pub fn new(time: Duration, most_bytes: usize) -> Limits {
        Limits { until: Instant::now() + time, most_bytes, conflicts: u64::MAX }
    }

    /// The same with so many conflicts.
    pub fn with_conflicts(&self, conflicts: u64) -> Limits {
        Limits { conflicts, ..*self }
    }

    /// Looks at the clock and at the memory in use. It takes some fifty nanoseconds, so whoever
    /// builds or searches looks after each small step.
    pub fn look(&self) -> Result<(), Stop> {
        if Instant::now() >= self.until {
            Err(Stop::Time)
        } else {
            self.allow(0)
        }
    }

    /// Looks at the memory that it will be with so many bytes more.
    pub fn allow(&self, bytes: usize) -> Result<(), Stop> {
        match counted::bytes().saturating_add(bytes) > self.most_bytes {
            true => Err(Stop::Memory),
            false => Ok(()),
        }
    }

    /// The time that is left.
    pub fn left(&self) -> Duration {
        self.until.saturating_duration_since(Instant::now())
    }

    /// Takes one of the conflicts.
    pub fn conflict(&mut self) -> Result<(), Stop> {
        self.conflicts = self.conflicts.checked_sub(1).ok_or(Stop::Conflicts)?;
        Ok(())
    }
}

#[cfg(test)]
mod tests {
    use super::*;

    #[test]
    fn each_limit_is_told() {
        let hour = Duration::from_secs(3600);
        assert_eq!(Limits::new(hour, usize::MAX).look(), Ok(()));
        assert_eq!(Limits::new(Duration::ZERO, usize::MAX).look(), Err(Stop::Time));
        let lent = vec![1_u8; 1 << 20];
        assert_eq!(Limits::new(hour, lent.len()).look(), Err(Stop::Memory));
        let room = Limits::new(hour, 1 << 40);
        assert_eq!([room.allow(1 << 20), room.allow(1 << 40)], [Ok(()), Err(Stop::Memory)]);
        let mut two = Limits::new(hour, usize::MAX).with_conflicts(2);
        let taken = [two.conflict(), two.conflict(), two.conflict()];
        assert_eq!(taken, [Ok(()), Ok(()), Err(Stop::Conflicts)]);
    }
}

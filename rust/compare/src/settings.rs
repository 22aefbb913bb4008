//! Seed and length of a run, from the environment, and its spread over the cores.

use std::env;
use std::thread;

/// How a run is made: the same settings give the same run.
#[derive(Clone, Copy, Debug)]
pub struct Settings {
    /// `LOGBOOK_SEED`.
    pub seed: u64,
    /// `LOGBOOK_ROUNDS`, a multiplier of the usual number of rounds.
    pub rounds: usize,
}

impl Settings {
    /// The settings of the environment, printed so that a failure can be run again.
    pub fn read(name: &str) -> Settings {
        let settings = Settings {
            seed: number("LOGBOOK_SEED", 20_261_116),
            rounds: number("LOGBOOK_ROUNDS", 1) as usize,
        };
        let Settings { seed, rounds } = settings;
        println!("{name}: LOGBOOK_SEED={seed} LOGBOOK_ROUNDS={rounds}");
        settings
    }
}

/// A number of the environment.
pub fn number(name: &str, usual: u64) -> u64 {
    match env::var(name) {
        Ok(text) => text
            .parse()
            .unwrap_or_else(|_| panic!("{name} is no number")),
        Err(_) => usual,
    }
}

/// Does the rounds, shared among the cores, and joins what the cores made of them.
pub fn spread<T, W, J>(rounds: usize, work: W, join: J) -> T
where
    T: Default + Send,
    W: Fn(usize, &mut T) + Sync,
    J: Fn(&mut T, T),
{
    let cores = thread::available_parallelism().map_or(1, |cores| cores.get());
    let share = |core: usize| {
        let mut made = T::default();
        (core..rounds)
            .step_by(cores)
            .for_each(|round| work(round, &mut made));
        made
    };
    let mut whole = T::default();
    thread::scope(|scope| {
        let share = &share;
        let running: Vec<_> = (0..cores)
            .map(|core| scope.spawn(move || share(core)))
            .collect();
        for core in running {
            join(
                &mut whole,
                core.join().expect("a round failed, see its case above"),
            );
        }
    });
    whole
}

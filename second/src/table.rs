//! The crew table: who holds which job, and so who is whose peer.

use crate::names::{Controller, Job, EIGHT};

/// "The *crew table* has one byte per job; bit n-1 says that controller n holds the job."
#[derive(Clone, Copy, PartialEq, Eq, Debug, Default, Hash)]
pub struct Table(pub [u8; EIGHT]);

impl Table {
    /// Whether the controller holds the job.
    pub fn holds(&self, controller: Controller, job: Job) -> bool {
        self.0[usize::from(job.number())] >> controller.index() & 1 == 1
    }

    /// Whether the controller holds any job at all.
    pub fn in_some_job(&self, controller: Controller) -> bool {
        self.0.iter().any(|holders| holders >> controller.index() & 1 == 1)
    }

    /// "Peers of n are the controllers that share a job with it, n included": n itself always, also where it holds
    /// no job.
    pub fn peers(&self, one: Controller, other: Controller) -> bool {
        let both = 1 << one.index() | 1 << other.index();
        one == other || self.0.iter().any(|holders| holders & both == both)
    }

    /// The peers of a controller, itself included, ascending.
    pub fn peers_of(&self, one: Controller) -> impl Iterator<Item = Controller> + '_ {
        Controller::all().filter(move |&other| self.peers(one, other))
    }
}

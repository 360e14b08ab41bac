//! Scenes with jobs: run to their ends, stopped and taken up again, stepped
//! one by one, and written by the host itself.

use crate::values;
use crate::writer::Writer;
use crate::wrongs;
use processor::jobs::Job;

impl Writer {
    /// A job to start, now and then one that can't be.
    pub fn wish(&mut self) -> Job {
        let width = self.width();
        let mut job = values::job(&mut self.rng, width);
        match self.rng.below(8) {
            0 => values::spoil(&mut self.rng, &mut job, width),
            1 => values::spoil_used(&mut self.rng, &mut job, width),
            2 => job = wrongs::offered(&mut self.rng, width, &job),
            _ => {}
        }
        job
    }

    /// A job from its start to its stated end: its total is what it takes, and
    /// the two images show what it did.
    pub fn job_to_its_end(&mut self) {
        if self.n() > 100 && !self.rng.once_in(4) {
            return;
        }
        if self.model.job.is_some() {
            self.say("drop");
        }
        let job = self.wish();
        self.say("# ends");
        self.say("# same 3 4");
        self.say("store");
        self.start(&job);
        self.say("total");
        self.say("run");
        self.say("store");
    }

    /// A job stored on its way and run to its end twice from there.
    pub fn job_with_a_stop(&mut self) {
        let job = self.wish();
        self.start(&job);
        for _ in 0..self.rng.between(0, 9) {
            if self.model.job.is_some() || self.rng.once_in(3) {
                self.say("step");
            }
        }
        if !self.is_storable() || self.n() > 100 {
            return;
        }
        self.say("# same 2 5");
        self.say("# same 3 6");
        let answer = self.say("store");
        self.say("run");
        self.say("store");
        self.say(answer.replacen("image", "resume", 1));
        self.say("run");
        self.say("store");
    }

    /// Steps and totals, with starts while a job is held, steps after its end
    /// and the host's own writes between.
    pub fn job_step_by_step(&mut self) {
        for _ in 0..self.rng.between(4, 16) {
            let wanted = self.model.job.is_none() && !self.rng.once_in(4);
            match if wanted { 0 } else { self.rng.below(14) } {
                0 => {
                    let job = self.wish();
                    self.start(&job);
                }
                2 => drop(self.say("total")),
                3 => self.fill(),
                4 => drop(self.say("panel")),
                5 if self.rng.once_in(3) => drop(self.say("run")),
                6 => self.some_pulses(),
                _ => drop(self.say("step")),
            }
        }
        self.look();
    }

    /// The host writes a record itself: at any place, sound or not.
    pub fn poked_job(&mut self) {
        let width = self.width();
        let job = values::record(&mut self.rng, width);
        self.write_job(&job);
        for _ in 0..self.rng.between(1, 3) {
            match self.rng.below(6) {
                0 => drop(self.say("total")),
                1 => drop(self.say("run")),
                2 => self.look(),
                3 => drop(self.start(&job)),
                _ => drop(self.say("step")),
            }
        }
    }
}

//! Scenes with wrong jobs, in every call that judges them: each reason by turns,
//! any two numbers by turns, and each number on a machine that 1, 2 or 3 is given
//! for.

use crate::tally::jobreasons::{pairs, NUMBERS};
use crate::values;
use crate::writer::{digits, Writer};
use crate::wrongs;
use processor::image::compose;

impl Writer {
    /// A job held that is wrong for one reason. Then a start while it is held, or
    /// while a sound one is, and another while none is.
    pub fn wrong_alone(&mut self) {
        if !self.has_room_for_jobs() {
            return;
        }
        let all = wrongs::all_alone();
        let (reason, kind) = all[self.wrong_turn(0, all.len())];
        let width = self.width();
        let job = wrongs::for_reason(&mut self.rng, width, reason, kind);
        self.write_job(&job);
        self.judged();
        self.short_room();
        self.start_while_held();
        self.say("drop");
        let offer = wrongs::offered(&mut self.rng, width, &job);
        self.start(&offer);
    }

    /// A job held that is wrong for two numbers, and one that is started so: the
    /// second number may be that of a job held.
    pub fn wrong_twice(&mut self) {
        if !self.has_room_for_jobs() {
            return;
        }
        let all = pairs();
        let (one, other) = all[self.wrong_turn(1, all.len())];
        let width = self.width();
        let job = wrongs::for_numbers(&mut self.rng, width, &[one, other]);
        self.write_job(&job);
        self.judged();
        let offer = wrongs::offered(&mut self.rng, width, &job);
        if other != "25" {
            self.say("drop");
        }
        self.start(&offer);
    }

    /// The same with a machine that is wrong itself, and the round's calls.
    pub fn wrong_on_wrong(&mut self) {
        let all: Vec<(u64, u64)> = (1..=3)
            .flat_map(|m| (20..=25).map(move |k| (m, k)))
            .collect();
        let (first, number) = all[self.wrong_turn(2, all.len())];
        self.make_machine_wrong(first);
        let width = self.width();
        let named = NUMBERS
            .iter()
            .filter(|n| n.starts_with(&number.to_string()));
        let named: Vec<&str> = named.copied().collect();
        let named = self.rng.pick(&named);
        let job = wrongs::for_number(&mut self.rng, width, named);
        self.write_job(&job);
        self.judged();
        if number != 25 {
            self.say("drop");
        }
        let offer = wrongs::offered(&mut self.rng, width, &job);
        self.start(&offer);
        self.round_calls(number);
        if !self.rng.once_in(4) {
            self.read_sound_machine();
        }
    }

    /// Where the turns have come to, each time one further.
    fn wrong_turn(&mut self, which: usize, all: usize) -> usize {
        let turn = self.wrongs[which];
        self.wrongs[which] += 1;
        (turn % all as u64) as usize
    }

    /// Whether 1 to 3 have nothing against the machine and its width leaves room for
    /// three syllables.
    fn has_room_for_jobs(&self) -> bool {
        self.model.machine.check().is_ok() && self.width() >= 3
    }

    pub fn read_sound_machine(&mut self) {
        let (width, n) = (self.rng.between(3, 64) as u8, self.rng.between(1, 9));
        let machine = values::machine(&mut self.rng, width, n as usize);
        self.say(format!("resume {}", digits(&compose(&machine, &None))));
    }

    /// The calls that judge a held job; the output has room for the image.
    fn judged(&mut self) {
        let mut calls = ["step", "run", "total", "store", "list", "room 20000"];
        self.rng.shuffle(&mut calls);
        for call in calls {
            self.say(call);
        }
    }

    /// The order of 10.
    fn short_room(&mut self) {
        let length = 39 + 9 * self.n();
        let room = self.rng.pick(&[0, length - 22, length - 1]);
        self.say(format!("room {room}"));
    }

    /// A start judges the job offered, not the one held.
    fn start_while_held(&mut self) {
        let width = self.width();
        let kind = self.rng.between(1, 4) as u8;
        let sound = wrongs::sound(&mut self.rng, width, kind);
        if self.rng.once_in(2) {
            self.write_job(&sound);
        }
        let number = wrongs::used_number(&mut self.rng);
        let wrong = wrongs::for_number(&mut self.rng, width, number);
        let offer = self.rng.pick(&[sound, wrong, wrong]);
        let offer = wrongs::offered(&mut self.rng, width, &offer);
        self.start(&offer);
    }

    /// A machine that this number alone is given for.
    pub fn make_machine_wrong(&mut self, number: u64) {
        let n = self.rng.between(1, 9);
        let width = self.rng.between(3, 63) as u8;
        let wide = self.rng.pick(&[65, 66, 128, 255]);
        match number {
            1 if self.rng.once_in(3) => {
                let n = self.rng.pick(&[0, 1025]);
                self.say(format!("machine {width} {n}"));
            }
            1 => {
                self.say(format!("machine {width} {n}"));
                let m = self.rng.pick(&[n + 1, n - 1]);
                self.say(format!("lend {m}"));
            }
            2 => drop(self.say(format!("machine {wide} {n}"))),
            _ => {
                self.say(format!("machine {width} {n}"));
                let stray = values::stray_bit(&mut self.rng, width);
                let index = self.rng.below(n);
                self.say(format!("word {index} {stray:X}"));
            }
        }
    }

    /// The round's calls that this number is given for; word 0 is the shown one.
    fn round_calls(&mut self, number: u64) {
        let (x, f) = match number {
            23 => self.rng.pick(&[(8, 0), (0, 8), (255, 1), (1, 255)]),
            24 => self.rng.pick(&[(0, 0), (3, 3), (7, 7)]),
            _ => return,
        };
        self.say("response 0 FF");
        self.say("show 8");
        self.say(format!("done {x} {f} 0"));
        self.say(format!("faulty {x} {f} 0"));
    }
}

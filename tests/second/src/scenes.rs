//! Scenes of a script: a few lines each that bring out one thing. A comment
//! line `# same A B` promises that the answers of the A-th and B-th commands
//! after it are the same; `# ends` that the five commands after it show a job
//! from its start to its stated end.

use crate::codes::{self, Codes};
use crate::values;
use crate::writer::{digits, Writer};
use processor::image::{self, compose};
use processor::line::LONGEST;
use processor::machine::{is_stray, ones};
use processor::panel::LINE_NAMES;

impl Writer {
    /// One scene, after what may be out of order has been set right.
    pub fn scene(&mut self) {
        self.heal();
        match self.rng.below(160) {
            0..=6 => self.new_machine(),
            7..=10 => self.fill(),
            11..=24 => self.some_pulses(),
            25 => self.wrapping_twin(),
            26..=36 => self.twin(),
            37 => self.survey(),
            38..=40 => self.two_resolutions(),
            41..=47 => self.job_to_its_end(),
            48..=53 => self.job_with_a_stop(),
            54..=57 => self.job_step_by_step(),
            58..=63 => self.poked_job(),
            64..=65 => self.kept_round(),
            66..=68 => self.loose_round(),
            69..=78 => self.images(),
            79..=80 => self.turned_down(),
            81..=84 => self.single(),
            85..=90 => self.bad_line(),
            91..=95 => self.edge_of_a_range(),
            96..=97 => self.edge_of_a_line(),
            98..=99 => self.quiet_line(),
            100..=106 => self.search_at_its_edge(),
            107..=110 => self.every_way(),
            111..=113 => self.wrong_search(),
            114..=118 => self.wrong_alone(),
            119..=122 => self.wrong_twice(),
            123..=124 => self.wrong_on_wrong(),
            125..=128 => self.asked_why(),
            129..=130 => self.asked_in_vain(),
            _ => self.array_scene(),
        }
    }

    /// Sets right, sooner or later, what makes every call be turned down.
    pub fn heal(&mut self) {
        let width = self.width();
        match self.model.machine.check() {
            Err(refusal) if refusal.number == 3 && self.rng.once_in(2) => {
                let value = values::number(&mut self.rng, width, &[]);
                self.say(format!("word {} {value:X}", refusal.also));
            }
            Err(_) if self.rng.once_in(4) => self.new_machine(),
            Ok(()) if self.n() > 100 && self.rng.once_in(3) => self.new_machine(),
            _ => {}
        }
        let panel = self.model.panel;
        let registers = [
            ("comp", panel.comp),
            ("sdr", panel.sdr),
            ("sc1", panel.sc1),
            ("sc2", panel.sc2),
            ("sc3", panel.sc3),
            ("mor", panel.mor),
        ];
        for (name, value) in registers {
            if is_stray(value, width) && self.rng.once_in(2) {
                self.load(name, value & ones(u32::from(width)));
            }
        }
        if self.model.job.is_some() && self.rng.once_in(6) {
            self.say("drop");
        }
    }

    pub fn new_machine(&mut self) {
        let mut width = values::any_width(&mut self.rng);
        let mut n = values::any_size(&mut self.rng);
        if self.rng.once_in(40) {
            width = self.rng.pick(&[0, 65]);
            n = self.rng.pick(&[0, 1025]);
        }
        self.say(format!("machine {width} {n}"));
        let small = (1..=40).contains(&n) && (1..=64).contains(&width);
        let large = n == 1024 && (1..=64).contains(&width) && self.rng.once_in(3);
        if (small && self.rng.once_in(2)) || large {
            let machine = values::machine(&mut self.rng, width, n);
            self.say(format!("resume {}", digits(&compose(&machine, &None))));
        } else {
            self.fill();
        }
        // A large machine is soon left for another, so it is used at once.
        if n > 100 {
            self.some_pulses();
        }
    }

    /// The host writes some words and responses.
    pub fn fill(&mut self) {
        for _ in 0..self.rng.between(1, 6) {
            let index = self.index();
            let index = self.decimal(index);
            if self.rng.once_in(2) {
                let value = self.number();
                let value = self.hex(value);
                self.say(format!("word {index} {value}"));
            } else {
                let value = u64::from(values::byte(&mut self.rng));
                let value = self.hex(value);
                self.say(format!("response {index} {value}"));
            }
        }
        if self.rng.once_in(20) {
            self.lend();
        }
    }

    /// A number for a word or a register: near a word, now and then stray.
    fn number(&mut self) -> u64 {
        let width = self.width();
        let value = values::number(&mut self.rng, width, &self.model.machine.words);
        values::perhaps_stray(&mut self.rng, width, value)
    }

    /// A number for COMP: nearer still.
    fn comparand(&mut self) -> u64 {
        let width = self.width();
        let value = values::comparand(&mut self.rng, width, &self.model.machine.words);
        values::perhaps_stray(&mut self.rng, width, value)
    }

    /// A response buffer of the right length, or of one beside it.
    pub fn lend(&mut self) {
        let n = self.n();
        let m = self.rng.pick(&[n, n, n + 1, n.saturating_sub(1), 0]);
        self.say(format!("lend {m}"));
    }

    /// Key, care and target; the key often one that selects.
    pub fn load_selection(&mut self) {
        if self.rng.once_in(2) {
            let responses = &self.model.machine.responses;
            let index = self.rng.below(responses.len() as u64) as usize;
            let known = responses.get(index).copied().unwrap_or(0);
            let other = values::byte(&mut self.rng);
            let key = self.rng.pick(&[known, known, other]);
            self.load("key", u64::from(key));
        }
        if self.rng.once_in(2) {
            let care = values::care(&mut self.rng);
            self.load("care", u64::from(care));
        }
        if self.rng.once_in(2) {
            let target = values::byte(&mut self.rng);
            self.load("target", u64::from(target));
        }
    }

    /// Syllables and their codes.
    pub fn load_search(&mut self) {
        let width = self.width();
        if self.rng.once_in(2) {
            let sdr = values::definition(&mut self.rng, width);
            let sdr = values::perhaps_stray(&mut self.rng, width, sdr);
            self.load("sdr", sdr);
        }
        let sdr = self.model.panel.sdr;
        let mut codes = codes::any(&mut self.rng, sdr, width);
        for register in [&mut codes.sc1, &mut codes.sc2, &mut codes.sc3] {
            *register = values::perhaps_stray(&mut self.rng, width, *register);
        }
        self.load_codes(codes);
    }

    pub fn load_codes(&mut self, codes: Codes) {
        self.load("sc1", codes.sc1);
        self.load("sc2", codes.sc2);
        self.load("sc3", codes.sc3);
    }

    /// SC3 alone: none of it, over all that is larger or smaller, or anything.
    fn load_setting(&mut self) {
        let sc1 = self.model.panel.sc1;
        let any = self.number();
        let sc3 = self.rng.pick(&[0, sc1, sc1, any]);
        self.load("sc3", sc3);
    }

    /// COMP, MOR and the address.
    pub fn load_change(&mut self) {
        if !self.rng.once_in(3) {
            let comp = self.comparand();
            self.load("comp", comp);
        }
        if self.rng.once_in(2) {
            let mor = self.number();
            self.load("mor", mor);
        }
        if self.rng.once_in(2) {
            let address = self.address();
            let address = self.decimal(address);
            self.say(format!("load address {address}"));
        }
    }

    pub fn load_panel(&mut self) {
        self.load_selection();
        match self.rng.below(16) {
            0..=7 => self.load_search(),
            8 => self.load_setting(),
            _ => {}
        }
        self.load_change();
    }

    /// The lines of a pulse: one, a pair in either order, or a wrong choice.
    pub fn lines(&mut self) -> String {
        let mut names = LINE_NAMES;
        self.rng.shuffle(&mut names[..6]);
        match self.rng.below(40) {
            0..=13 => self.rng.pick(&LINE_NAMES).to_string(),
            14..=35 => names[..2].join(" "),
            36 => names[5..].join(" "),
            37 => String::new(),
            _ => names[..self.rng.between(3, 7) as usize].join(" "),
        }
    }

    pub fn some_pulses(&mut self) {
        self.load_panel();
        for _ in 0..self.rng.between(2, 7) {
            let lines = self.lines();
            let way = self.rng.pick(&["pulse", "cells"]);
            self.say(format!("{way} {lines}"));
        }
        if self.rng.once_in(3) {
            self.why();
        }
        if self.rng.once_in(3) {
            self.look();
        }
    }

    /// What the machine is now, as far as it isn't too much.
    pub fn look(&mut self) {
        if self.n() <= 40 || self.rng.once_in(6) {
            let line = self.rng.pick(&["store", "list"]);
            self.say(line);
        }
    }

    pub fn is_storable(&self) -> bool {
        image::write(&self.model.machine, &self.model.job, LONGEST).is_ok()
    }

    /// The same pulse on both machines, from the same image.
    pub fn twin(&mut self) {
        self.load_panel();
        let lines = self.lines();
        if compose(&self.model.machine, &None).len() > 400 && !self.rng.once_in(8) {
            return;
        }
        self.on_both(&lines);
    }

    /// The same for a write and an add that meet where a 64-bit syllable wraps,
    /// which hardly comes by chance. In a new machine's panel SDR and care are 0:
    /// one syllable, and all words selected.
    pub fn wrapping_twin(&mut self) {
        let n = self.rng.between(1, 4);
        self.say(format!("machine 64 {n}"));
        let comp = values::number(&mut self.rng, 64, &[1, u64::MAX]);
        let mor = values::number(&mut self.rng, 64, &[u64::MAX]);
        self.load("comp", comp);
        self.load("mor", mor);
        let addend = comp & mor;
        let least = addend.wrapping_neg();
        for index in 0..n {
            let between = least.wrapping_add(self.rng.below(addend));
            let word = self.rng.pick(&[least, between, u64::MAX]);
            self.say(format!("word {index} {word:X}"));
        }
        let address = self.rng.below(n);
        self.say(format!("load address {address}"));
        let write = self.rng.pick(&["write", "multiwrite"]);
        let add = self.rng.pick(&["add", "multiadd"]);
        self.on_both(&format!("{write} {add}"));
    }

    /// These lines on both machines, from the same image.
    pub fn on_both(&mut self, lines: &str) {
        if self.model.machine.check().is_err() {
            self.say("# same 1 2");
            self.say(format!("pulse {lines}"));
            self.say(format!("cells {lines}"));
            return;
        }
        if !self.is_storable() {
            self.say("drop");
        }
        self.say("# same 2 5");
        self.say("# same 3 6");
        let answer = self.say("store");
        self.say(format!("pulse {lines}"));
        self.say("store");
        self.say(answer.replacen("image", "resume", 1));
        self.say(format!("cells {lines}"));
        self.say("store");
    }

    /// All seven lines singly and all their pairs.
    pub fn survey(&mut self) {
        self.load_panel();
        let way = self.rng.pick(&["pulse", "cells"]);
        for (first, name) in LINE_NAMES.iter().enumerate() {
            self.say(format!("{way} {name}"));
            for other in &LINE_NAMES[first + 1..] {
                self.say(format!("{way} {other} {name}"));
            }
            if self.rng.once_in(2) {
                self.load_change();
            }
        }
        self.look();
    }

    pub fn two_resolutions(&mut self) {
        self.load_selection();
        if self.rng.once_in(2) {
            let care = values::byte(&mut self.rng) | 1 << self.rng.below(8);
            self.load("care", u64::from(care));
        }
        self.say("# same 1 2");
        self.say("resolve");
        self.say("tree");
    }
}

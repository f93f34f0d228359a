//! The train account, the passage rule and the opening tick over generated sessions, with lost
//! reports in their lists (document 02, T-02); that an unsure track keeps its crossing out of
//! normal position (document 02, T-01) but while ticks are left to motorists, that no signal lets
//! trains pass then, and that a crossing closes in time (document 02, T-06): with reasons, trains
//! and ticks left worked out from the list of events alone, taken from any sender (document 02,
//! T-04); all of it at every kind, with the release and the signals of the sheet of 1959 (document
//! 02, T-09).

use compare::case::Case;
use compare::Command;
use engine::{boom, draw, event, number, panel_len, sender, Entry, Plant, Site, PANEL};

/// What the list says of one crossing.
#[derive(Clone, Copy, Default)]
struct Account {
    struck_in: u32,
    passed: u32,
    written_off: u32,
    calling: [u32; 4],
    waiting: [u32; 4],
    unsure: [bool; 4],
    route: [bool; 4],
    holds: [bool; 2],
    approaches: [bool; 4],
    countdown: u32,
    /// Ticks out of normal, and trains written off because there were too many.
    out: u32,
    overdue: u32,
    /// Ticks for which a reason has stood unbroken; and with it every boom up.
    stood: u32,
    closing: u32,
    phase: u8,
    timer: u16,
    /// Ticks left to motorists.
    left: u16,
    booms: [u8; 4],
    /// A boom was reported lost.
    lost: bool,
    dead: [bool; 7],
}

impl Account {
    fn reason(&self) -> bool {
        self.calling != [0; 4] || self.is_unsure() || self.holds != [false; 2]
    }

    fn is_unsure(&self) -> bool {
        self.unsure != [false; 4]
    }

    fn strike_in(&mut self, entry: &Entry, t: usize) {
        self.struck_in += 1;
        self.countdown = 0;
        match entry.mask >> t & 1 == 0 || self.route[t] {
            _ if self.calling[t] + self.waiting[t] == 255 => {
                self.written_off += 1;
                self.unsure[t] = true;
            }
            true => self.calling[t] += 1,
            false => self.waiting[t] += 1,
        }
    }

    fn pass(&mut self, t: usize) {
        self.passed += 1;
        match self.calling[t] > 0 {
            true => self.calling[t] -= 1,
            false => self.waiting[t] -= 1,
        }
    }

    fn set_route(&mut self, t: usize, on: bool) {
        self.route[t] = on;
        if on {
            self.calling[t] += self.waiting[t];
            self.waiting[t] = 0;
        }
    }

    /// Six minutes under the sheet of 1959, with nothing in the way.
    fn is_overdue(&self, entry: &Entry) -> bool {
        let free = self.holds == [false; 2] && self.approaches == [false; 4];
        entry.kind > 4 && self.out >= 1079 && free
    }

    fn tick(&mut self, entry: &Entry) {
        let overdue = self.is_overdue(entry);
        if overdue || self.countdown == 1 {
            let trains: u32 = self.calling.iter().chain(&self.waiting).sum();
            self.written_off += trains;
            self.overdue += trains * u32::from(overdue);
            self.countdown = 0;
            self.calling = [0; 4];
            self.waiting = [0; 4];
            self.unsure = [false; 4];
        }
        self.countdown = self.countdown.saturating_sub(1);
        self.stood += 1;
        self.closing += 1;
        (self.phase, self.timer) = match (self.phase, self.timer) {
            (1, 1) if entry.gap > 0 => (2, entry.gap),
            (1 | 2, 1) => (3, 0),
            (phase, timer) => (phase, timer.saturating_sub(1)),
        };
        self.left = self.left.saturating_sub(1);
        self.settle(entry);
        self.out += 1;
    }

    /// Phase, timer and ticks left, with motorists first where raising ends.
    fn settle(&mut self, entry: &Entry) {
        let (phase, timer, left) = match (self.phase, self.reason()) {
            (0, true) if self.left == 0 => (1, entry.pre, 0),
            (1, false) => (0, 0, 0),
            (3, false) if matches!(entry.kind, 1 | 5) => (0, 0, entry.pause),
            (2 | 3, false) => (4, 0, 0),
            (4, true) if self.is_up() && entry.pause == 0 => (1, entry.pre, 0),
            (4, _) if self.is_up() => (0, 0, entry.pause),
            _ => return,
        };
        (self.phase, self.timer, self.left) = (phase, timer, left);
    }

    fn is_up(&self) -> bool {
        self.booms == [boom::UP; 4]
    }

    fn take(&mut self, entry: &Entry, [code, _, place, value]: [u8; 4]) {
        let place = usize::from(place);
        match code {
            1 => self.strike_in(entry, place),
            2 => self.pass(place),
            3 | 4 => self.holds[usize::from(code) - 3] = value == 1,
            5 => self.set_route(place, value == 1),
            6 => self.approaches[place] = value == 1,
            7 => self.countdown = 270,
            8 => self.report(place, value),
            9 => self.dead[place] = value == 0,
            _ => {}
        }
        if (3..=6).contains(&code) && value == 1 {
            self.countdown = 0;
        }
        self.settle(entry);
    }

    fn report(&mut self, boom: usize, value: u8) {
        self.booms[boom] = value;
        self.lost |= value == boom::LOST;
    }

    /// As the kind demands its booms, and kind 6 their lamps.
    fn closed(&self, kind: u8) -> bool {
        match kind {
            1 | 5 => true,
            2 | 6 => self.booms[..2]
                .iter()
                .all(|b| [boom::MOVING, boom::DOWN].contains(b) && self.dead[5..] == [false; 2]),
            3 => self.booms[..2] == [boom::DOWN; 2],
            _ => self.booms == [boom::DOWN; 4],
        }
    }
}

fn play(accounts: &mut [Account; 8], site: &Site, e: [u8; 4]) {
    let n = usize::from(site.n);
    if e[0] == 0 {
        let used = accounts[..n].iter_mut().zip(&site.entries);
        used.for_each(|(account, entry)| account.tick(entry));
    } else {
        let c = usize::from(e[1]);
        accounts[c].take(&site.entries[c], e);
    }
    for account in accounts.iter_mut() {
        let reason = account.reason();
        account.stood *= u32::from(reason);
        account.closing *= u32::from(reason && account.is_up());
        account.out *= u32::from(account.phase != 0 || !account.is_up());
    }
}

/// What document 02, T-06, says of one crossing after the list.
fn motorists(account: &Account, plant: &Plant, i: usize, panel: &[u8], met: &mut Met) {
    let entry = &plant.site.entries[i];
    assert_eq!(plant.crossings[i].left, account.left);
    let normal = panel[9] & 1 == 1;
    if account.is_unsure() && normal {
        assert!(account.left > 0);
        met.marked_normal += 1;
    }
    if account.left > 0 {
        assert!(panel[6] != 2 && panel[8] == 0);
        met.left += 1;
    }
    let due = u32::from(entry.pause + entry.pre + entry.gap);
    let down = panel[10] == 3;
    if account.closing > due {
        let ordered = [![1, 5].contains(&entry.kind), entry.kind == 4].map(u8::from);
        assert!(down && panel[4..6] == ordered);
        met.in_time += 1;
    }
    // From a list M + F + G ticks can be needed, and one fewer is not enough.
    if entry.pause > 0 && account.closing + 1 == due && !down {
        met.at_the_last += 1;
    }
}

/// The parts at one crossing after the list; whether its signals let trains pass.
fn hold(account: &Account, plant: &Plant, i: usize, panel: &[u8]) -> bool {
    let (entry, record) = (&plant.site.entries[i], &plant.crossings[i]);
    let trains = record.calling.iter().chain(&record.waiting);
    let there: u32 = trains.map(|t| u32::from(*t)).sum();
    let gone = account.passed + account.written_off;
    assert_eq!(account.struck_in, gone + there);
    let passes = panel[6] == 2 || panel[8] != 0;
    if passes {
        assert!(account.reason() && account.closed(entry.kind) && !account.dead[1]);
    }
    // The white of kind 5 asks for no F ticks.
    if passes && entry.kind != 5 || panel[8] != 0 {
        assert!(account.stood >= u32::from(entry.pre + entry.gap));
    }
    if !account.reason() {
        assert_eq!(panel[4..6], [0, 0]);
        if account.is_up() {
            let mut after = *plant;
            assert_eq!(event(&mut after, sender::DETECTION, [0; 4]).0, 0);
            let mut panel = vec![0; panel_len(plant.site.n)];
            assert_eq!(draw(&after, sender::DETECTION, &mut panel), 0);
            assert_eq!(panel[PANEL * i + 9] & 1, 1);
        }
    }
    passes
}

/// How often trains may pass at a crossing after a lost report, by kind; and how many events were
/// refused for their sender, which each come again from one who may send them.
#[derive(Default)]
struct Met {
    after_lost: [u32; 7],
    refused: u32,
    /// Of document 02, T-09: trains that a closure of six minutes wrote off; white at kind 5 before
    /// F ticks.
    overdue: u32,
    early_white: u32,
    /// Of document 02, T-06: how often ticks were left, with a marked crossing in normal position;
    /// how often all was down in time, and not before the last tick of it.
    left: u32,
    marked_normal: u32,
    in_time: u32,
    at_the_last: u32,
}

/// The list as it is sent.
fn sent(plant: &mut Plant, command: Command, met: &mut Met) -> (u8, u32) {
    let answer = event(plant, command.sender, command.event);
    if ![number::UNKNOWN_SENDER, number::NO_RIGHT].contains(&answer.0) {
        return answer;
    }
    met.refused += 1;
    assert_eq!(answer.1, 0);
    let rightful = Command::rightful(command.event);
    event(plant, rightful.sender, rightful.event)
}

fn session(site: &Site, commands: &[Command], met: &mut Met) {
    let mut plant = Plant::fresh(site);
    let mut accounts = [Account::default(); 8];
    let mut panel = vec![0; panel_len(site.n)];
    let mut answered = 0;
    for command in commands {
        let (number, written_off) = sent(&mut plant, *command, met);
        if number == 0 {
            play(&mut accounts, site, command.event);
        }
        answered += written_off;
        assert_eq!(draw(&plant, sender::DETECTION, &mut panel), 0);
        for (i, bytes) in panel.chunks_exact(PANEL).enumerate() {
            motorists(&accounts[i], &plant, i, bytes, met);
            let (passes, entry) = (hold(&accounts[i], &plant, i, bytes), &site.entries[i]);
            if passes && accounts[i].lost {
                met.after_lost[usize::from(entry.kind)] += 1;
            }
            met.early_white += u32::from(passes && accounts[i].stood < entry.pre.into());
        }
    }
    met.overdue += accounts.iter().map(|a| a.overdue).sum::<u32>();
    let written_off: u32 = accounts.iter().map(|a| a.written_off).sum();
    assert_eq!(written_off, answered);
}

#[test]
fn the_parts_hold_after_every_event() {
    let mut met = Met::default();
    for index in 0..1500 {
        let Case::Session { site, commands } = Case::session(9, index) else {
            panic!("not a session");
        };
        session(&site, &commands, &mut met);
    }
    assert!([2, 3, 4, 6].iter().all(|kind| met.after_lost[*kind] > 0));
    assert!(met.overdue > 100 && met.early_white > 1000);
    assert!(met.refused > 1000);
    assert!(met.left > 1000 && met.in_time > 1000);
    assert!(met.marked_normal > 0 && met.at_the_last > 0);
}

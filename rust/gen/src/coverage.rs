//! Counters of what a set of inputs reached.

use crate::agreed::AgreeCounts;
use crate::boarded::BoardCounts;
use crate::boards::Board;
use crate::booms::BoomBytes;
use crate::flags::FlagBytes;
use crate::lost_met::LostCounts;
use crate::old_met::OldCounts;
use crate::paused::PauseCounts;
use crate::previewed::PreviewCounts;
use crate::quiet_met::QuietCounts;
use crate::senders::{sees_all, Command};
use crate::sent::SenderCounts;
use crate::sheets::sheet_events;
use crate::unsure::UnsureCounts;
use engine::{
    boom, code, event, number, phase, Agreement, BoardDistance, Crossing, Plant, Site, PANEL,
};

/// The eight calls.
#[derive(Clone, Copy, PartialEq, Debug)]
pub enum Call {
    ReadBook,
    WriteBook,
    Event,
    Draw,
    Run,
    Preview,
    Agree,
    Board,
}

/// Room for every kind, counted from 1.
pub(crate) const KINDS: usize = 7;

/// Room for every number of an answer, and some more.
pub(crate) const NUMBERS: usize = 32;

/// The place of a number.
pub(crate) fn place(number: u8) -> usize {
    usize::from(number) % NUMBERS
}

/// The answer that the event itself would get. A plant which only its beat spoils gets one too.
pub(crate) fn own_answer(plant: &Plant, command: Command) -> (u8, u32) {
    let beat = plant.beat.min(3);
    event(&mut Plant { beat, ..*plant }, command.sender, command.event)
}

/// What was reached, and how often.
#[derive(Clone, Default)]
pub struct Coverage {
    pub(crate) calls: [[u64; NUMBERS]; 8],
    pub(crate) codes: [[u64; NUMBERS]; 11],
    pub(crate) phases: [[u64; 5]; KINDS],
    pub(crate) moves: [[u64; 5]; 5],
    pub(crate) bytes: [ByteCounts; PANEL],
    /// By rhythm and beat, at kinds 1 to 4: the signals shown, then the signals lit.
    pub(crate) signals: [[ByteCounts; 4]; 3],
    pub(crate) written_off: [u64; 3],
    pub(crate) panels: u64,
    pub(crate) flags: [FlagBytes; 6],
    pub(crate) booms: [BoomBytes; 6],
    pub(crate) unsure: UnsureCounts,
    pub(crate) lost: LostCounts,
    pub(crate) pauses: PauseCounts,
    pub(crate) old: OldCounts,
    pub(crate) previews: PreviewCounts,
    pub(crate) senders: SenderCounts,
    pub(crate) agrees: AgreeCounts,
    pub(crate) boards: BoardCounts,
    /// In a box: a comparison has little stack to spare.
    pub(crate) quiet: Box<QuietCounts>,
}

/// How often a byte had each value.
#[derive(Clone)]
pub(crate) struct ByteCounts([u64; 256]);

impl Default for ByteCounts {
    fn default() -> ByteCounts {
        ByteCounts([0; 256])
    }
}

impl ByteCounts {
    pub(crate) fn count(&mut self, byte: u8) {
        self.0[usize::from(byte)] += 1;
    }

    /// How often the byte had bits as wished.
    pub(crate) fn sum(&self, wished: impl Fn(u8) -> bool) -> u64 {
        let counts = (0..=255).zip(&self.0);
        counts.filter(|(b, _)| wished(*b)).map(|(_, n)| n).sum()
    }

    /// How many values the byte had.
    pub(crate) fn values(&self) -> u64 {
        self.0.iter().filter(|count| **count > 0).count() as u64
    }

    pub(crate) fn add(&mut self, other: &ByteCounts) {
        sums(&mut self.0, &other.0);
    }
}

/// Adds other counts, one by one.
pub(crate) fn sums(counts: &mut [u64], other: &[u64]) {
    counts.iter_mut().zip(other).for_each(|(a, b)| *a += b);
}

/// 0 slow, 1 fast, 2 steady.
fn rhythm(record: &Crossing) -> usize {
    let normal = record.phase == phase::OPEN && record.booms == [boom::UP; 4];
    match (record.lamps[4], normal) {
        (0, _) => 2,
        (_, true) => 0,
        (_, false) => 1,
    }
}

/// A bit for each signal that is not dark.
fn shown(bytes: &[u8]) -> u8 {
    let shown = [bytes[0], bytes[3], bytes[6], bytes[7]].map(|aspect| aspect != 0);
    (0..4).map(|s| u8::from(shown[s]) << s).sum()
}

impl Coverage {
    pub fn new() -> Coverage {
        Coverage::default()
    }

    /// A call answered with `number`.
    pub fn call(&mut self, call: Call, number: u8) {
        self.calls[call as usize][place(number)] += 1;
    }

    /// A book read with this answer.
    pub fn read(&mut self, book: &[u8], number: u8) {
        self.call(Call::ReadBook, number);
        self.pauses.read(book, number);
        self.old.read(book, number);
    }

    /// Settings written as a book with this answer.
    pub fn write(&mut self, site: &Site, number: u8) {
        self.call(Call::WriteBook, number);
        self.pauses.write(site, number);
        self.old.write(site, number);
    }

    /// A call was handed this plant.
    pub fn handed(&mut self, call: Call, plant: &Plant) {
        self.flags[call as usize].mark(plant);
        self.booms[call as usize].mark(plant);
        self.pauses.handed(call as usize, plant);
        self.old.handed(call as usize, plant);
    }

    /// A sheet run from a plant was answered with `number`.
    pub fn ran(&mut self, plant: &Plant, sheet: &[u8], number: u8) {
        let events = sheet_events(sheet).unwrap_or_default();
        if number == number::TAKEN {
            self.quiet.run(plant, &events);
        }
    }

    /// How many events were put to the engine one by one.
    pub fn events(&self) -> u64 {
        self.calls[Call::Event as usize].iter().sum()
    }

    /// An event answered so, and the plants before and after it.
    pub fn event(&mut self, before: &Plant, command: Command, answer: (u8, u32), after: &Plant) {
        let (e, (number, written_off)) = (command.event, answer);
        self.call(Call::Event, number);
        self.senders.event(before, command, number);
        let code = usize::from(e[0].min(code::LAMP_REPORT + 1));
        self.codes[code][place(number)] += 1;
        if (e[0], number) == (code::BOOM_REPORT, number::UNKNOWN_VALUE) {
            self.lost
                .refused(&after.site.entries[usize::from(e[1])], e[3]);
        }
        if e[0] == code::LAMP_REPORT {
            self.old.report(before, e, number);
        }
        if number != number::TAKEN {
            return self.pauses.refused(before, e[1], number);
        }
        if e[0] == code::TICK {
            self.written_off[written_off.min(2) as usize] += 1;
        }
        let changed = match e[0] {
            code::TICK => 0..usize::from(after.site.n),
            _ => usize::from(e[1])..usize::from(e[1]) + 1,
        };
        for i in changed {
            let (from, to) = (&before.crossings[i], &after.crossings[i]);
            let entry = &after.site.entries[i];
            self.phases[usize::from(entry.kind)][usize::from(to.phase)] += 1;
            self.moves[usize::from(from.phase)][usize::from(to.phase)] += 1;
            self.unsure.event(entry, e, from, to);
            self.lost.event(entry, e, from, to);
            self.pauses.event(entry, e, from, to);
            if e[0] == code::TICK {
                self.old.tick(entry, from, to);
            }
        }
    }

    /// A drawing for a sender answered with `number`, and the lent panel after it.
    pub fn draw(&mut self, plant: &Plant, sender: u8, number: u8, panel: &[u8]) {
        self.call(Call::Draw, number);
        self.senders.draw(plant, sender, number, panel);
        if number == number::TAKEN && sees_all(sender) {
            self.panel(plant, panel);
        }
    }

    /// A whole panel drawn.
    pub fn panel(&mut self, plant: &Plant, panel: &[u8]) {
        self.panels += 1;
        let records = plant.crossings.iter().zip(&plant.site.entries);
        for ((record, entry), bytes) in records.zip(panel.chunks_exact(PANEL)) {
            for (counts, byte) in self.bytes.iter_mut().zip(bytes) {
                counts.count(*byte);
            }
            if !entry.is_old() {
                let row = &mut self.signals[rhythm(record)][usize::from(plant.beat)];
                row.count(shown(bytes) << 4 | bytes[1] & 15);
            }
            let stop = matches!(bytes[6], 1 | 3);
            self.lost.panel(entry, record, stop, bytes[2] == 1);
            self.pauses.panel(entry, record, bytes[9] & 1 == 1);
            self.old.panel(entry, record, plant.beat, bytes);
        }
    }

    /// A preview answered so, and the lent panel after it.
    pub fn preview(&mut self, plant: &Plant, command: Command, answer: (u8, u32), panel: &[u8]) {
        self.call(Call::Preview, answer.0);
        self.previews.preview(plant, command, answer, panel);
        self.senders.preview(plant, command, answer.0, panel);
    }

    /// A preview within a list of events answered with `number`.
    pub fn preview_in_list(&mut self, number: u8) {
        self.call(Call::Preview, number);
        self.previews.in_list(number);
    }

    /// An event of a list answered with `number`.
    pub fn event_in_list(&mut self, sender: u8, number: u8) {
        self.senders.in_list(sender, number);
    }

    /// Two sheets compared with this answer.
    pub fn agree(&mut self, hut: &[u8], cabin: &[u8], answer: Agreement) {
        self.call(Call::Agree, answer.number);
        self.agrees.pair(hut, cabin, answer);
    }

    /// A distance of the arrow board.
    pub fn board(&mut self, board: Board, answer: BoardDistance) {
        self.call(Call::Board, answer.number);
        self.boards.board(board, answer);
    }

    /// Adds what another run of cases reached.
    pub fn add(&mut self, other: &Coverage) {
        sums(self.calls.as_flattened_mut(), other.calls.as_flattened());
        sums(self.codes.as_flattened_mut(), other.codes.as_flattened());
        sums(self.phases.as_flattened_mut(), other.phases.as_flattened());
        sums(self.moves.as_flattened_mut(), other.moves.as_flattened());
        sums(&mut self.written_off, &other.written_off);
        let bytes = self.bytes.iter_mut().zip(&other.bytes);
        let signals = self.signals.as_flattened_mut().iter_mut();
        let signals = signals.zip(other.signals.as_flattened());
        bytes.chain(signals).for_each(|(a, b)| a.add(b));
        let flags = self.flags.iter_mut().zip(&other.flags);
        flags.for_each(|(a, b)| a.add(b));
        let booms = self.booms.iter_mut().zip(&other.booms);
        booms.for_each(|(a, b)| a.add(b));
        self.unsure.add(&other.unsure);
        self.lost.add(&other.lost);
        self.pauses.add(&other.pauses);
        self.old.add(&other.old);
        self.previews.add(&other.previews);
        self.senders.add(&other.senders);
        self.agrees.add(&other.agrees);
        self.boards.add(&other.boards);
        self.quiet.add(&other.quiet);
        self.panels += other.panels;
    }
}

//! Parts of a case, with something left out or lowered.

use crate::Command;
use engine::{boom, Crossing, Entry, Plant, Site};

/// One byte fewer, or one byte lower.
pub(super) fn shorter_bytes(bytes: &[u8]) -> Vec<Vec<u8>> {
    let mut list = Vec::new();
    for i in 0..bytes.len() {
        let mut shorter = bytes.to_vec();
        shorter.remove(i);
        list.push(shorter);
        for lower in [0, 1, bytes[i] / 2, bytes[i].saturating_sub(1)] {
            let mut changed = bytes.to_vec();
            changed[i] = lower;
            list.push(changed);
        }
    }
    list
}

/// The frame without its last byte, last 16 bytes or half of them, or filled with zeros.
pub(super) fn shorter_frames(frame: &[u8]) -> Vec<Vec<u8>> {
    let len = frame.len();
    vec![
        vec![0; len],
        vec![0; len.saturating_sub(1)],
        vec![0; len.saturating_sub(16)],
        vec![0; len / 2],
    ]
}

fn lower_entries(entry: &Entry) -> Vec<Entry> {
    let mut list = vec![];
    for tracks in 1..entry.tracks {
        let mask = entry.mask & ((1 << tracks) - 1);
        list.push(Entry {
            tracks,
            mask,
            ..*entry
        });
    }
    for t in 0..8 {
        let mask = entry.mask & !(1 << t);
        list.push(Entry { mask, ..*entry });
    }
    for pre in [1, 2, 3, 15, entry.pre / 2] {
        list.push(Entry { pre, ..*entry });
    }
    for gap in [1, 2, entry.gap / 2] {
        list.push(Entry { gap, ..*entry });
    }
    for pause in [0, 1, 2, 3, entry.pause / 2, entry.pause.saturating_sub(1)] {
        list.push(Entry { pause, ..*entry });
    }
    for kind in 1..entry.kind {
        let gap = 0;
        list.push(Entry {
            kind,
            gap,
            ..*entry
        });
    }
    list.push(Entry::ZERO);
    list
}

fn without<T: Copy, const N: usize>(list: &[T; N], i: usize, last: T) -> [T; N] {
    let mut shorter = *list;
    shorter.copy_within(i + 1.., i);
    shorter[N - 1] = last;
    shorter
}

pub(super) fn site_without(site: &Site, i: usize) -> Site {
    Site {
        n: site.n - 1,
        entries: without(&site.entries, i, Entry::ZERO),
    }
}

/// The sites with one entry lowered.
pub(super) fn lower_sites(site: &Site) -> Vec<Site> {
    let mut list = Vec::new();
    for (i, entry) in site.entries.iter().enumerate() {
        for lower in lower_entries(entry) {
            let mut changed = *site;
            changed.entries[i] = lower;
            list.push(changed);
        }
    }
    list
}

/// The crossings that can be left out.
pub(super) fn can_go(site: &Site) -> std::ops::Range<usize> {
    match site.n {
        2..=8 => 0..usize::from(site.n),
        _ => 0..0,
    }
}

/// The known senders below this one, or the first unknown one; and halfway down.
pub(super) fn lower_senders(sender: u8) -> impl Iterator<Item = u8> {
    (0..=4)
        .chain([sender / 2])
        .filter(move |lower| *lower < sender)
}

/// The command from one who may send it or from a lower sender, or with one byte of the event
/// lower.
pub(super) fn lower_commands(command: Command) -> Vec<Command> {
    let Command { sender, event } = command;
    let mut list = vec![Command::rightful(event)];
    list.extend(lower_senders(sender).map(|sender| Command { sender, event }));
    for bytes in shorter_bytes(&event) {
        if let Ok(event) = bytes.try_into() {
            list.push(Command { sender, event });
        }
    }
    list
}

pub(super) fn renumber_command(command: Command, gone: usize) -> Option<Command> {
    let event = renumber(command.event, gone)?;
    Some(Command { event, ..command })
}

/// The event after crossing `gone` is left out; none if it was that crossing's.
pub(super) fn renumber(e: [u8; 4], gone: usize) -> Option<[u8; 4]> {
    let [code, crossing, place, value] = e;
    if code == 0 || usize::from(crossing) < gone {
        return Some(e);
    }
    if usize::from(crossing) == gone {
        return None;
    }
    Some([code, crossing - 1, place, value])
}

/// The records with one flag as this.
fn lower_flags(flag: u8, with: &mut dyn FnMut(&dyn Fn(&mut Crossing))) {
    for i in 0..4 {
        with(&|c| c.route[i] = flag);
        with(&|c| c.occupied[i] = flag);
        with(&|c| c.unsure[i] = flag);
    }
    for i in 0..7 {
        with(&|c| c.lamps[i] = flag);
    }
    with(&|c| c.kiosk = flag);
    with(&|c| c.operator = flag);
}

fn lower_records(entry: &Entry, c: &Crossing) -> Vec<Crossing> {
    let mut list = vec![Crossing::fresh(entry), Crossing::ZERO];
    let mut with = |change: &dyn Fn(&mut Crossing)| {
        let mut lower = *c;
        change(&mut lower);
        list.push(lower);
    };
    for i in 0..4 {
        for lower in [0, 1, c.calling[i] / 2] {
            with(&|c| c.calling[i] = lower);
        }
        for lower in [0, 1, c.waiting[i] / 2] {
            with(&|c| c.waiting[i] = lower);
        }
        for report in boom::UP..=boom::LOST + 1 {
            with(&|c| c.booms[i] = report);
        }
    }
    for flag in [0, 1, 2] {
        lower_flags(flag, &mut with);
    }
    for lower in [0, 1, c.countdown / 2] {
        with(&|c| c.countdown = lower);
    }
    for lower in [0, 1, c.left / 2, c.left.saturating_sub(1)] {
        with(&|c| c.left = lower);
    }
    for lower in [0, 1, c.out / 2, 901, 1078, 1079, 1080, 1081] {
        with(&|c| c.out = lower);
    }
    with(&|c| (c.phase, c.timer) = (0, 0));
    with(&|c| (c.phase, c.timer, c.left) = (3, 0, 0));
    with(&|c| c.timer = 1);
    list
}

/// The plants with one number lowered.
pub(super) fn lower_plants(plant: &Plant) -> Vec<Plant> {
    let sites = lower_sites(&plant.site).into_iter();
    let mut list: Vec<Plant> = sites.map(|site| with_site(plant, site)).collect();
    list.push(Plant { beat: 0, ..*plant });
    for (i, record) in plant.crossings.iter().enumerate() {
        for lower in lower_records(&plant.site.entries[i], record) {
            let mut changed = *plant;
            changed.crossings[i] = lower;
            list.push(changed);
        }
    }
    list
}

/// The plant with other settings; boom lamps go where the new kind has none of its own.
fn with_site(plant: &Plant, site: Site) -> Plant {
    let mut changed = Plant { site, ..*plant };
    for (i, c) in changed.crossings.iter_mut().enumerate() {
        if plant.site.entries[i].lamps() > site.entries[i].lamps() {
            c.lamps[site.entries[i].lamps().into()..].fill(0);
        }
    }
    changed
}

pub(super) fn plant_without(plant: &Plant, i: usize) -> Plant {
    Plant {
        site: site_without(&plant.site, i),
        beat: plant.beat,
        crossings: without(&plant.crossings, i, Crossing::ZERO),
    }
}

/// The plants with one crossing or one number less, and the commands with one byte lower.
pub(super) fn lower_moments(plant: &Plant, command: Command) -> Vec<(Plant, Command)> {
    let mut list = Vec::new();
    for i in can_go(&plant.site) {
        if let Some(command) = renumber_command(command, i) {
            list.push((plant_without(plant, i), command));
        }
    }
    let lower = lower_plants(plant).into_iter();
    list.extend(lower.map(|plant| (plant, command)));
    let lower = lower_commands(command).into_iter();
    list.extend(lower.map(|command| (*plant, command)));
    list
}

//! The sheet of 1959 in the inputs (document 02, T-09).

use engine::{draw, event, in_range, panel_len, read_book, write_book, Crossing, Entry, Plant};
use gen::{
    book_bytes, coherent, damaged_book, entry, every_old, old_lamps, old_panels, old_settings,
    old_ticks, plant, quick_site, site, spoilt_plant, BookDamage, Call, Command, Coverage, Rng,
    Spoil,
};

fn has_old(entries: &[Entry]) -> bool {
    entries.iter().any(Entry::is_old)
}

/// About half of the sites have none; every other number of a site stays as it was.
#[test]
fn settings_with_and_without() {
    let (mut without, mut kinds) = (0, [0; 7]);
    for seed in 0..4000 {
        let (mut rng, mut plain) = (Rng::new(seed), Rng::new(seed));
        let site = quick_site(&mut rng);
        assert_eq!(plain.within(1..=8), site.n.into());
        let entries = &site.entries[..site.n.into()];
        without += usize::from(!has_old(entries));
        for e in entries {
            let base = entry(&mut plain, true);
            kinds[usize::from(e.kind)] += 1;
            let due = match e.kind {
                5 => Entry { kind: 5, ..base },
                6 => Entry {
                    kind: 6,
                    pre: 15,
                    ..base
                },
                _ => base,
            };
            let pause = e.pause;
            assert_eq!(*e, Entry { pause, ..due });
            assert_eq!(e.booms(), base.booms());
        }
        assert_eq!(rng.next(), plain.next());
    }
    assert!((2000..2600).contains(&without), "{without}");
    assert!(kinds[1..].iter().all(|count| *count > 1000), "{kinds:?}");
}

/// Plants with boom lamps dead and whole, and out of normal around the bounds at every kind.
#[test]
fn plants_under_that_sheet() {
    let mut rng = Rng::new(13);
    let (mut lamps, mut outs) = ([[0; 2]; 2], [[0; 1081]; 7]);
    let mut plants = 0;
    for _ in 0..8000 {
        let plant = plant(&mut rng);
        assert!(in_range(&plant));
        let old = has_old(&plant.site.entries);
        plants += u32::from(old);
        for (c, e) in plant.crossings.iter().zip(&plant.site.entries) {
            assert!(old || c.out <= 901 && c.lamps[5..] == [0, 0]);
            outs[usize::from(e.kind)][usize::from(c.out)] += 1;
            if e.kind == 6 {
                lamps[0][usize::from(c.lamps[5])] += 1;
                lamps[1][usize::from(c.lamps[6])] += 1;
            }
        }
    }
    assert!((3000..5000).contains(&plants), "{plants}");
    assert!(lamps.as_flattened().iter().all(|count| *count > 200));
    for outs in &outs[1..] {
        let bounds = [900, 901, 1078, 1079, 1080];
        assert!(bounds.iter().all(|out| outs[*out] > 10), "{outs:?}");
    }
}

#[test]
fn damage_and_spoil() {
    let mut rng = Rng::new(14);
    for _ in 0..500 {
        let book = damaged_book(&mut rng, BookDamage::OldPre);
        assert_eq!(read_book(&book).0, 3);
    }
    let any = (0..6000).filter(|_| BookDamage::any(&mut rng) == BookDamage::OldPre);
    assert!((800..1200).contains(&any.count()));
    let mut kinds = [0; 7];
    for _ in 0..2000 {
        let plant = spoilt_plant(&mut rng, Spoil::LackingBoomLamp);
        let records = plant.crossings.iter().zip(&plant.site.entries);
        let lacking = |(c, e): &(&Crossing, &Entry)| e.kind != 6 && c.lamps[5..] != [0, 0];
        let (_, entry) = records.into_iter().find(lacking).unwrap();
        kinds[usize::from(entry.kind)] += 1;
    }
    assert!(kinds[1..6].iter().all(|count| *count > 100), "{kinds:?}");
}

#[test]
fn grids() {
    let ticks = old_ticks();
    assert_eq!(ticks.len(), 14 * 5 * 3 * 6 * 6 + 8 * 5 * 3 * 6);
    assert!(ticks.iter().all(in_range));
    let panels: Vec<Plant> = old_panels().collect();
    assert_eq!(panels.len(), (8 * 128 + 32) * 4);
    assert!(panels.iter().all(in_range));
    assert_eq!(old_lamps().count(), 6 * 12 * 4);
    assert!(old_lamps().all(|(plant, _)| in_range(&plant)));
    let bounds: Vec<Plant> = every_old().collect();
    assert_eq!(bounds.len(), 6 * (2 * 2 * 6 + 11));
    let sound = bounds.iter().filter(|plant| in_range(plant)).count();
    assert_eq!(sound, 6 * (2 * 2 + 6) + 2);
    assert_eq!(old_settings().count(), 29 * 2 * 9 + 7 * 3);
    let sound = old_settings().filter(|site| read_book(&book_bytes(site)).0 == 0);
    // Kinds 1, 2, 3 and 5 with F 1 to 20, 179 and 180, kind 4 too with G 1, kind 6 with F 15.
    assert_eq!(sound.count(), 5 * 22 + 1 + 7);
}

fn send(plant: &mut Plant, e: [u8; 4], seen: &mut Coverage) {
    let (before, command) = (*plant, Command::rightful(e));
    let answer = event(plant, command.sender, e);
    seen.event(&before, command, answer, plant);
}

fn left(seen: &Coverage, groups: &[&str]) -> Vec<String> {
    let of_these = |s: &String| groups.iter().any(|group| s.starts_with(group));
    seen.missing().into_iter().filter(of_these).collect()
}

/// Plants and books alone, without a list before them, meet everything.
#[test]
fn the_grids_meet_everything() {
    let mut seen = Coverage::new();
    let ticks = old_ticks().into_iter().map(|plant| (plant, [0; 4]));
    for (mut plant, e) in ticks.chain(old_lamps()) {
        send(&mut plant, e, &mut seen);
    }
    for plant in old_panels() {
        let mut panel = vec![0; panel_len(plant.site.n)];
        assert_eq!(draw(&plant, 0, &mut panel), 0);
        seen.panel(&plant, &panel);
    }
    for plant in every_old() {
        let calls = [Call::Event, Call::Draw, Call::Run, Call::Preview];
        calls.into_iter().for_each(|call| seen.handed(call, &plant));
    }
    for site in old_settings() {
        let mut book = book_bytes(&site);
        seen.read(&book, read_book(&book).0);
        seen.write(&site, write_book(&site, &mut book));
    }
    let groups = ["long out", "1959", "lamps,", "book, F", "book, kind"];
    let left = left(&seen, &groups);
    assert!(left.is_empty(), "{left:?}");
}

/// Lists alone, from a fresh plant, come to the end of a closure of six minutes, and to each thing
/// that hinders it.
#[test]
fn lists_come_to_six_minutes() {
    let mut rng = Rng::new(15);
    let mut seen = Coverage::new();
    for _ in 0..300 {
        let mut plant = Plant::fresh(&site(&mut rng));
        for e in coherent(&mut rng, &plant, 4096) {
            send(&mut plant, e, &mut seen);
        }
    }
    let rare = ["marks alone", "in warning", "902"];
    let mut left = left(&seen, &["long out"]);
    left.retain(|goal| !rare.iter().any(|name| goal.contains(name)));
    assert!(left.is_empty(), "{left:?}");
}

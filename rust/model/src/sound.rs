//! "The disk": when a disk with its channels is *sound*.
//!
//! No call asks for this. It says what a disk that only CIO calls and recoveries have touched
//! since its format is like, and serves to test that.

use crate::channel::{Channel, Reading, Table, Writing, CHANNELS};
use crate::directory::{count, first, flag, slot_name, DELETED, FILE, LOCKED, OUTPUT_FILE, SLOTS};
use crate::disk::{is_data_sector, Density, SECTORS};
use crate::image::on_disk;
use crate::names::is_legal;
use crate::RIGHT;

/// The lent image and table are sound.
pub fn is_sound(image: &[u8], table: &[u16]) -> bool {
    let Ok(disk) = RIGHT.disk(image) else {
        return false;
    };
    let (records, []) = table.as_chunks() else {
        return false;
    };
    let Ok(table) = <&Table>::try_from(records) else {
        return false;
    };
    let channels = table.map(Channel::of);
    if channels.contains(&None) {
        return false;
    }
    let channels = channels.map(|channel| channel.unwrap_or(Channel::Closed));
    on_disk!(disk, disk => disk_is_sound(disk, &channels))
}

/// The disk with these channels is sound.
fn disk_is_sound(disk: &impl Density, channels: &[Channel; CHANNELS]) -> bool {
    RIGHT.table_is_good(disk)
        && flags_are_sound(disk)
        && names_are_sound(disk)
        && chains_are_sound(disk)
        && output_is_sound(disk, channels)
        && channels
            .iter()
            .all(|&channel| channel_is_sound(disk, channel))
}

/// Only the five flags, and after a zero flag only zero flags.
fn flags_are_sound(disk: &impl Density) -> bool {
    let used = (0..SLOTS).take_while(|&slot| flag(disk, slot) != 0).count() as u8;
    let known = [FILE, FILE | LOCKED, OUTPUT_FILE, DELETED];
    (0..used).all(|slot| known.contains(&flag(disk, slot)))
        && (used..SLOTS).all(|slot| flag(disk, slot) == 0)
}

/// Standing names are legal and all different.
fn names_are_sound(disk: &impl Density) -> bool {
    RIGHT.standing(disk).all(|slot| {
        let name = slot_name(disk, slot);
        is_legal(&name) && RIGHT.find(disk, &name) == Some(slot)
    })
}

/// Every standing chain is clean, and every used data sector is on one.
fn chains_are_sound(disk: &impl Density) -> bool {
    let mut on_chain = [false; SECTORS as usize];
    for slot in RIGHT.standing(disk) {
        if !RIGHT.chain_is_clean(disk, slot, false) {
            return false;
        }
        for sector in chain(disk, slot) {
            on_chain[usize::from(sector)] = true;
        }
    }
    (0..SECTORS)
        .filter(|&sector| is_data_sector(sector))
        .all(|sector| RIGHT.is_free(disk, sector) || on_chain[usize::from(sector)])
}

/// The sectors of a clean chain in order.
fn chain(disk: &impl Density, slot: u8) -> impl Iterator<Item = u16> + '_ {
    std::iter::successors(Some(first(disk, slot)), |&sector| {
        Some(RIGHT.tail(disk, sector).next).filter(|&next| next != 0)
    })
}

/// Each `$43` slot is held by exactly one channel, a writing one.
fn output_is_sound(disk: &impl Density, channels: &[Channel; CHANNELS]) -> bool {
    (0..SLOTS)
        .filter(|&slot| flag(disk, slot) == OUTPUT_FILE)
        .all(|slot| {
            let holders = channels.iter().filter(|channel| match channel {
                Channel::Closed => false,
                Channel::Reading(reading) => reading.slot == slot.into(),
                Channel::Writing(writing) => writing.slot == slot.into(),
            });
            matches!(holders.collect::<Vec<_>>()[..], [Channel::Writing(_)])
        })
}

/// A writing channel holds a `$43` slot and stands on its last sector. A reading channel names a
/// standing slot other than `$43` and is before its chain or on it.
fn channel_is_sound(disk: &impl Density, channel: Channel) -> bool {
    match channel {
        Channel::Closed => true,
        Channel::Writing(Writing { slot, last }) => RIGHT
            .standing(disk)
            .filter(|&standing| flag(disk, standing) == OUTPUT_FILE)
            .any(|standing| slot == standing.into() && chain(disk, standing).last() == Some(last)),
        Channel::Reading(reading) => RIGHT
            .standing(disk)
            .filter(|&standing| flag(disk, standing) != OUTPUT_FILE)
            .any(|standing| reading.slot == standing.into() && is_on(disk, standing, reading)),
    }
}

/// Before the chain (sector 0, offset 0), or on it with an offset not above that sector's bytes
/// in use; the sectors yet to enter are the rest of the chain.
fn is_on(disk: &impl Density, slot: u8, reading: Reading) -> bool {
    let Reading {
        sector,
        offset,
        left,
        ..
    } = reading;
    if sector == 0 {
        return offset == 0 && left == count(disk, slot);
    }
    let Some(place) = chain(disk, slot).position(|on| on == sector) else {
        return false;
    };
    offset <= RIGHT.tail(disk, sector).used.into()
        && usize::from(left) == usize::from(count(disk, slot)) - 1 - place
}

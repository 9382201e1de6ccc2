//! Events about a whole design: create, delete, activate, deactivate.

use super::set_state;
use crate::keeper::Keeper;
use crate::stores;
use crate::tables::{FILED, LIVE};

pub fn create(keeper: &mut Keeper, slot: usize, account: usize, number: u32) -> u32 {
    stores::create(slot, account, number).iter().for_each(|store| store.make(&mut keeper.disk));
    0
}

/// The map is all 0 already (question 7).
pub fn delete(keeper: &mut Keeper, slot: usize) -> u32 {
    keeper.disk.numbers[slot] = 0;
    keeper.disk.accounts[slot] = 0;
    0
}

/// Every listed page gets its record, live. Listed pages were charged before, and live ones are now.
pub fn activate(keeper: &mut Keeper, slot: usize) -> u32 {
    for page in keeper.pages_of(slot) {
        keeper.memory.addresses[page] = keeper.disk.maps[page];
        if let Some(record) = keeper.record_of(page) {
            set_state(keeper, record, LIVE);
        }
    }
    keeper.memory.active[slot] = 1;
    0
}

/// Every address is live and listed (question 12).
pub fn deactivate(keeper: &mut Keeper, slot: usize) -> u32 {
    for page in keeper.pages_of(slot) {
        if let Some(record) = keeper.record_of(page) {
            set_state(keeper, record, FILED);
        }
        keeper.memory.addresses[page] = 0;
    }
    keeper.memory.active[slot] = 0;
    0
}

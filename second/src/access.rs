//! Loads and stores.

use crate::address::{translate, PAddr, Use, VAddr};
use crate::bytes::{loaded, stored};
use crate::exception::Trouble;
use crate::instruction::{Code, Load, Store};
use crate::machine::Machine;
use crate::memory::Memory;

/// Gives the effective address of a load or store.
pub(crate) fn effective(machine: &Machine, code: Code) -> VAddr {
    VAddr(machine.gpr[code.rs()].wrapping_add(code.signed()))
}

/// Gives the number of bytes a load's address must be a multiple of.
pub(crate) fn load_alignment(load: Load) -> u64 {
    match load {
        Load::Half | Load::HalfUnsigned => 2,
        Load::Word | Load::WordUnsigned | Load::Linked => 4,
        Load::Double | Load::LinkedDouble => 8,
        _ => 1,
    }
}

/// Gives the number of bytes a store's address must be a multiple of.
pub(crate) fn store_alignment(store: Store) -> u64 {
    match store {
        Store::Half => 2,
        Store::Word | Store::Conditional => 4,
        Store::Double | Store::ConditionalDouble => 8,
        _ => 1,
    }
}

/// Gives the offset of an address inside its doubleword.
fn offset_of(address: PAddr) -> u32 {
    (address.0 & 7) as u32
}

/// Does a load.
pub fn load(machine: &mut Machine, memory: &Memory, code: Code, load: Load) -> Result<(), Trouble> {
    let address = effective(machine, code);
    let physical = translate(machine, address, load_alignment(load), Use::Load)?;
    let eight = memory.read(physical).ok_or(Use::Load.bus_error())?;
    let value = loaded(load, eight, offset_of(physical), machine.gpr[code.rt()]);
    machine.set_gpr(code.rt(), value);
    if matches!(load, Load::Linked | Load::LinkedDouble) {
        machine.link = true;
        machine.cp0.ll_addr = (physical.0 >> 4) as u32;
    }
    Ok(())
}

/// Does a store, or for a conditional one only its checks when the link bit is clear.
pub fn store(
    machine: &mut Machine,
    memory: &mut Memory,
    code: Code,
    store: Store,
) -> Result<(), Trouble> {
    let address = effective(machine, code);
    let physical = translate(machine, address, store_alignment(store), Use::Store)?;
    if !memory.takes_store(physical) {
        return Err(Use::Store.bus_error());
    }
    let conditional = matches!(store, Store::Conditional | Store::ConditionalDouble);
    if !conditional || machine.link {
        let patch = stored(store, machine.gpr[code.rt()], offset_of(physical));
        memory.write(physical, patch.bits, patch.mask);
    }
    if conditional {
        machine.set_gpr(code.rt(), machine.link as u64);
    }
    Ok(())
}

#[cfg(test)]
mod tests {
    use super::*;

    const EIGHT: u64 = 0x1122_3344_5566_7788;

    #[test]
    fn a_failed_conditional_store_writes_zero_to_its_register() {
        let mut machine = Machine::fresh();
        let mut ram = EIGHT.to_be_bytes();
        let mut memory = Memory { ram: &mut ram, rom: &[] };
        machine.gpr[2] = 0x99;
        let code = Code(0x38 << 26 | 2 << 16 | 4);
        store(&mut machine, &mut memory, code, Store::Conditional).unwrap();
        assert_eq!((machine.gpr[2], memory.read(PAddr(0))), (0, Some(EIGHT)));
        machine.gpr[2] = 0x99;
        load(&mut machine, &memory, Code(0x30 << 26 | 3 << 16), Load::Linked).unwrap();
        assert_eq!((machine.gpr[3], machine.link), (0x1122_3344, true));
        store(&mut machine, &mut memory, code, Store::Conditional).unwrap();
        assert_eq!((machine.gpr[2], memory.read(PAddr(0))), (1, Some(0x1122_3344_0000_0099)));
        assert!(machine.link);
    }

    #[test]
    fn bus_errors_come_before_the_link_bit() {
        let mut machine = Machine::fresh();
        machine.gpr[1] = 0xffff_ffff_bfc0_0000;
        let mut ram = [0; 8];
        let mut memory = Memory { ram: &mut ram, rom: &[0; 8] };
        let code = Code(1 << 21 | 2 << 16);
        assert_eq!(
            store(&mut machine, &mut memory, code, Store::Conditional),
            Err(Use::Store.bus_error())
        );
        assert_eq!(load(&mut machine, &memory, code, Load::LinkedDouble), Ok(()));
        assert_eq!(machine.cp0.ll_addr, 0x01fc_0000);
        machine.gpr[1] = 8;
        assert_eq!(load(&mut machine, &memory, code, Load::Byte), Err(Use::Load.bus_error()));
    }
}

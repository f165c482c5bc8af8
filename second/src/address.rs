//! Virtual and physical addresses, and the way from one to the other.

use crate::cp0::STATUS_ERL;
use crate::exception::{Exception, Stop, Trouble};
use crate::machine::Machine;
use crate::tlb::{search, Found};
use crate::word::extend;

/// A virtual address.
#[derive(Clone, Copy, Debug, PartialEq, Eq)]
pub struct VAddr(pub u64);

/// A physical address of 36 bits.
#[derive(Clone, Copy, Debug, PartialEq, Eq)]
pub struct PAddr(pub u64);

/// What an address is used for.
#[derive(Clone, Copy, Debug, PartialEq, Eq, PartialOrd, Ord)]
pub enum Use {
    Fetch,
    Load,
    Store,
}

impl Use {
    /// Gives the address error of this use.
    fn address_error(self, address: VAddr) -> Trouble {
        Trouble::Exception(match self {
            Use::Store => Exception::AddressStore(address),
            Use::Fetch | Use::Load => Exception::AddressLoad(address),
        })
    }

    /// Gives the refill or invalid exception of this use.
    fn tlb_error(self, address: VAddr, refill: bool) -> Trouble {
        Trouble::Exception(match self {
            Use::Store => Exception::TlbStore { address, refill },
            Use::Fetch | Use::Load => Exception::TlbLoad { address, refill },
        })
    }

    /// Gives the bus error of this use.
    pub fn bus_error(self) -> Trouble {
        Trouble::Exception(match self {
            Use::Fetch => Exception::FetchBus,
            Use::Load | Use::Store => Exception::DataBus,
        })
    }
}

/// The way an address takes through its segment.
#[derive(Clone, Copy, Debug, PartialEq, Eq)]
enum Route {
    Forbidden,
    Mapped,
    Unmapped(PAddr),
}

/// Finds the route of an address in the machine's mode.
fn route(machine: &Machine, address: VAddr) -> Route {
    let low = address.0 as u32;
    if address.0 != extend(low) {
        return Route::Forbidden;
    }
    let kernel = machine.cp0.is_kernel();
    match low >> 29 {
        0..=3 if machine.cp0.status & STATUS_ERL != 0 => Route::Unmapped(PAddr(low as u64)),
        0..=3 => Route::Mapped,
        _ if !kernel => Route::Forbidden,
        4 | 5 => Route::Unmapped(PAddr((low & 0x1fff_ffff) as u64)),
        _ => Route::Mapped,
    }
}

/// Translates an address that must be a multiple of the given size.
pub fn translate(
    machine: &Machine,
    address: VAddr,
    size: u64,
    purpose: Use,
) -> Result<PAddr, Trouble> {
    if address.0 & (size - 1) != 0 {
        return Err(purpose.address_error(address));
    }
    match route(machine, address) {
        Route::Forbidden => Err(purpose.address_error(address)),
        Route::Unmapped(physical) => Ok(physical),
        Route::Mapped => translate_mapped(machine, address, purpose),
    }
}

/// Translates a mapped address through the TLB.
fn translate_mapped(machine: &Machine, address: VAddr, purpose: Use) -> Result<PAddr, Trouble> {
    let low = address.0 as u32;
    match search(&machine.tlb, low, machine.cp0.asid()) {
        Found::None => Err(purpose.tlb_error(address, true)),
        Found::Several => Err(Trouble::Stop(Stop::DoubleMatch)),
        Found::One(place) => {
            let half = machine.tlb[place].half(low);
            if !half.valid {
                Err(purpose.tlb_error(address, false))
            } else if purpose == Use::Store && !half.dirty {
                Err(Trouble::Exception(Exception::Modified(address)))
            } else {
                Ok(PAddr(half.physical))
            }
        }
    }
}

#[cfg(test)]
mod tests {
    use super::*;
    use crate::tlb::{Slot, SlotValues};

    /// Gives a machine with the given Status.
    fn machine(status: u32) -> Machine {
        let mut machine = Machine::fresh();
        machine.cp0.status = status;
        machine
    }

    #[test]
    fn kernel_segments() {
        let kernel = machine(0);
        for (address, expected) in [
            (0x0u64, Route::Mapped),
            (0x7fff_ffff, Route::Mapped),
            (0x8000_0000, Route::Forbidden),
            (0xffff_ffff_8000_0004, Route::Unmapped(PAddr(4))),
            (0xffff_ffff_9fff_ffff, Route::Unmapped(PAddr(0x1fff_ffff))),
            (0xffff_ffff_a000_0000, Route::Unmapped(PAddr(0))),
            (0xffff_ffff_bfc0_0000, Route::Unmapped(PAddr(0x1fc0_0000))),
            (0xffff_ffff_c000_0000, Route::Mapped),
            (0xffff_ffff_ffff_ffff, Route::Mapped),
            (0xffff_fffe_ffff_ffff, Route::Forbidden),
        ] {
            assert_eq!(route(&kernel, VAddr(address)), expected, "{address:x}");
        }
    }

    #[test]
    fn user_segments_and_the_error_level() {
        let user = machine(0x10);
        assert_eq!(route(&user, VAddr(0x7fff_ffff)), Route::Mapped);
        for address in [0xffff_ffff_8000_0000, 0xffff_ffff_a000_0000, 0xffff_ffff_c000_0000] {
            assert_eq!(route(&user, VAddr(address)), Route::Forbidden);
        }
        let error = machine(0x14);
        assert_eq!(route(&error, VAddr(0x7fff_fff0)), Route::Unmapped(PAddr(0x7fff_fff0)));
        assert_eq!(route(&error, VAddr(0xffff_ffff_c000_0000)), Route::Mapped);
    }

    #[test]
    fn troubles_come_in_order() {
        let mut machine = machine(0);
        let address = VAddr(0x0040_0004);
        let unaligned = VAddr(0x0040_0001);
        assert_eq!(
            translate(&machine, unaligned, 4, Use::Load),
            Err(Trouble::Exception(Exception::AddressLoad(unaligned)))
        );
        assert_eq!(
            translate(&machine, address, 4, Use::Store),
            Err(Trouble::Exception(Exception::TlbStore { address, refill: true }))
        );
        let values = SlotValues { page_mask: 0, entry_hi: 0x0040_0000, entry_lo0: 0, entry_lo1: 0 };
        machine.tlb[5] = Slot::written(values);
        assert_eq!(
            translate(&machine, address, 4, Use::Fetch),
            Err(Trouble::Exception(Exception::TlbLoad { address, refill: false }))
        );
        machine.tlb[5] = Slot::written(SlotValues { entry_lo0: 0x42, ..values });
        assert_eq!(
            translate(&machine, address, 4, Use::Store),
            Err(Trouble::Exception(Exception::Modified(address)))
        );
        assert_eq!(translate(&machine, address, 4, Use::Load), Ok(PAddr(0x1004)));
        machine.tlb[6] = machine.tlb[5];
        assert_eq!(
            translate(&machine, address, 4, Use::Load),
            Err(Trouble::Stop(Stop::DoubleMatch))
        );
    }
}

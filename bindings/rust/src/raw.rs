//! The calls of `include/heapguard.h` and `include/heapguard_service.h`.

/// The 16 bytes of a core, which the library alone looks into.
#[repr(C)]
pub struct RawCore {
    at: *mut u8,
    mark: u64,
}

impl RawCore {
    pub fn closed() -> RawCore {
        RawCore {
            at: std::ptr::null_mut(),
            mark: 0,
        }
    }
}

/// The 16 bytes of a bank, which the library alone looks into.
#[repr(C)]
pub struct RawBank {
    at: *mut u8,
    mark: u64,
}

impl RawBank {
    pub fn closed() -> RawBank {
        RawBank {
            at: std::ptr::null_mut(),
            mark: 0,
        }
    }
}

/// The 16 bytes of a service, which the library alone looks into.
#[repr(C)]
pub struct RawService {
    at: *mut u8,
    mark: u64,
}

impl RawService {
    pub fn closed() -> RawService {
        RawService {
            at: std::ptr::null_mut(),
            mark: 0,
        }
    }
}

/// The 16 bytes of a worker of a service, which the library alone looks into.
#[repr(C)]
pub struct RawWorker {
    at: *mut u8,
    mark: u64,
}

impl RawWorker {
    pub fn none() -> RawWorker {
        RawWorker {
            at: std::ptr::null_mut(),
            mark: 0,
        }
    }
}

/// The 16 bytes of a bank of services, which the library alone looks into.
#[repr(C)]
pub struct RawBankService {
    at: *mut u8,
    mark: u64,
}

impl RawBankService {
    pub fn closed() -> RawBankService {
        RawBankService {
            at: std::ptr::null_mut(),
            mark: 0,
        }
    }
}

/// The 16 bytes of a worker of a bank of services, which the library alone looks into.
#[repr(C)]
pub struct RawBankWorker {
    at: *mut u8,
    mark: u64,
}

impl RawBankWorker {
    pub fn none() -> RawBankWorker {
        RawBankWorker {
            at: std::ptr::null_mut(),
            mark: 0,
        }
    }
}

/// A block of a bank.
#[repr(C)]
#[derive(Clone, Copy)]
pub struct RawBankHandle {
    pub core: u64,
    pub handle: u64,
}

#[repr(C)]
#[derive(Clone, Copy)]
pub struct RawReply {
    pub status: u16,
    pub owner: u16,
    pub detail: u32,
    pub value: u64,
}

pub const BLOCK: u16 = 1;
pub const DONE: u16 = 2;
pub const PARTED: u16 = 3;
pub const VALUE: u16 = 4;
pub const TAKEN: u16 = 5;
pub const PAGES: u16 = 6;
pub const REFILLED: u16 = 7;
pub const LISTED: u16 = 8;
pub const AGAIN: u16 = 25;
pub const STILL_OUT: u16 = 26;
pub const STILL_HELD: u16 = 27;
pub const LOST: u16 = 28;
pub const NO_MEMORY: u16 = 57;

extern "C" {
    pub fn hg_version() -> u32;
    pub fn hg_open(
        core: *mut RawCore,
        policy: *const u8,
        policy_length: usize,
        room: *mut u8,
        room_length: usize,
    ) -> RawReply;
    pub fn hg_close(core: *mut RawCore) -> RawReply;
    pub fn hg_alloc(
        core: *mut RawCore,
        worker: u32,
        actor: u32,
        arena: u32,
        bytes: u64,
    ) -> RawReply;
    pub fn hg_free(core: *mut RawCore, worker: u32, actor: u32, block: u64) -> RawReply;
    pub fn hg_deliver(core: *mut RawCore, worker: u32) -> RawReply;
    pub fn hg_take(core: *mut RawCore, worker: u32, segment: u32) -> RawReply;
    pub fn hg_collect(core: *mut RawCore, worker: u32) -> RawReply;
    pub fn hg_read(core: *mut RawCore, worker: u32, actor: u32, block: u64, index: u32)
        -> RawReply;
    pub fn hg_write(
        core: *mut RawCore,
        worker: u32,
        actor: u32,
        block: u64,
        index: u32,
        value: u64,
    ) -> RawReply;
    pub fn hg_look(core: *mut RawCore, worker: u32, actor: u32, place: u32) -> RawReply;
    pub fn hg_abandon(core: *mut RawCore, worker: u32, segment: u32) -> RawReply;
    pub fn hg_refill(core: *mut RawCore, worker: u32, arena: u32) -> RawReply;
    pub fn hg_read_words(
        core: *mut RawCore,
        worker: u32,
        actor: u32,
        block: u64,
        first: u32,
        room: *mut u64,
        count: usize,
    ) -> RawReply;
    pub fn hg_write_words(
        core: *mut RawCore,
        worker: u32,
        actor: u32,
        block: u64,
        first: u32,
        words: *const u64,
        count: usize,
    ) -> RawReply;
    pub fn hg_read_bytes(
        core: *mut RawCore,
        worker: u32,
        actor: u32,
        block: u64,
        first: u64,
        room: *mut u8,
        count: usize,
    ) -> RawReply;
    pub fn hg_write_bytes(
        core: *mut RawCore,
        worker: u32,
        actor: u32,
        block: u64,
        first: u64,
        bytes: *const u8,
        count: usize,
    ) -> RawReply;
    pub fn hg_free_all(core: *mut RawCore, worker: u32, actor: u32, owner: u32) -> RawReply;
    pub fn hg_workers(core: *const RawCore) -> RawReply;
    pub fn hg_segments(core: *const RawCore) -> RawReply;
    pub fn hg_holds(core: *const RawCore, worker: u32, segment: u32) -> RawReply;
    pub fn hg_holder(core: *const RawCore, segment: u32) -> RawReply;
    pub fn hg_charge(core: *const RawCore, worker: u32, tenant: u32) -> RawReply;
    pub fn hg_tenant(core: *const RawCore, name: *const u8, name_length: usize) -> RawReply;
    pub fn hg_arena(core: *const RawCore, name: *const u8, name_length: usize) -> RawReply;
    pub fn hg_tenant_name(
        core: *const RawCore,
        tenant: u32,
        room: *mut u8,
        room_length: usize,
    ) -> RawReply;
    pub fn hg_bank_open(
        bank: *mut RawBank,
        policy: *const u8,
        policy_length: usize,
        cores: u32,
        room: *mut u8,
        room_length: usize,
    ) -> RawReply;
    pub fn hg_bank_close(bank: *mut RawBank) -> RawReply;
    pub fn hg_bank_grow(bank: *mut RawBank) -> RawReply;
    pub fn hg_bank_alloc(
        bank: *mut RawBank,
        worker: u32,
        actor: u32,
        arena: u32,
        bytes: u64,
    ) -> RawReply;
    pub fn hg_bank_refill(bank: *mut RawBank, worker: u32, arena: u32) -> RawReply;
    pub fn hg_bank_free(
        bank: *mut RawBank,
        worker: u32,
        actor: u32,
        block: RawBankHandle,
    ) -> RawReply;
    pub fn hg_bank_deliver(bank: *mut RawBank, worker: u32, core: u32) -> RawReply;
    pub fn hg_bank_take(bank: *mut RawBank, worker: u32, core: u32, segment: u32) -> RawReply;
    pub fn hg_bank_collect(bank: *mut RawBank, worker: u32, core: u32) -> RawReply;
    pub fn hg_bank_read(
        bank: *mut RawBank,
        worker: u32,
        actor: u32,
        block: RawBankHandle,
        index: u32,
    ) -> RawReply;
    pub fn hg_bank_write(
        bank: *mut RawBank,
        worker: u32,
        actor: u32,
        block: RawBankHandle,
        index: u32,
        value: u64,
    ) -> RawReply;
    pub fn hg_bank_look(
        bank: *mut RawBank,
        worker: u32,
        actor: u32,
        core: u32,
        place: u32,
    ) -> RawReply;
    pub fn hg_bank_abandon(bank: *mut RawBank, worker: u32, core: u32, segment: u32) -> RawReply;
    pub fn hg_bank_read_words(
        bank: *mut RawBank,
        worker: u32,
        actor: u32,
        block: RawBankHandle,
        first: u32,
        room: *mut u64,
        count: usize,
    ) -> RawReply;
    pub fn hg_bank_write_words(
        bank: *mut RawBank,
        worker: u32,
        actor: u32,
        block: RawBankHandle,
        first: u32,
        words: *const u64,
        count: usize,
    ) -> RawReply;
    pub fn hg_bank_read_bytes(
        bank: *mut RawBank,
        worker: u32,
        actor: u32,
        block: RawBankHandle,
        first: u64,
        room: *mut u8,
        count: usize,
    ) -> RawReply;
    pub fn hg_bank_write_bytes(
        bank: *mut RawBank,
        worker: u32,
        actor: u32,
        block: RawBankHandle,
        first: u64,
        bytes: *const u8,
        count: usize,
    ) -> RawReply;
    pub fn hg_bank_free_all(
        bank: *mut RawBank,
        worker: u32,
        actor: u32,
        core: u32,
        owner: u32,
    ) -> RawReply;
    pub fn hg_bank_cores(bank: *const RawBank) -> RawReply;
    pub fn hg_bank_workers(bank: *const RawBank) -> RawReply;
    pub fn hg_bank_segments(bank: *const RawBank) -> RawReply;
    pub fn hg_bank_holds(bank: *const RawBank, worker: u32, core: u32, segment: u32) -> RawReply;
    pub fn hg_bank_holder(bank: *const RawBank, core: u32, segment: u32) -> RawReply;
    pub fn hg_bank_charge(bank: *const RawBank, worker: u32, tenant: u32) -> RawReply;
    pub fn hg_bank_tenant(bank: *const RawBank, name: *const u8, name_length: usize) -> RawReply;
    pub fn hg_bank_arena(bank: *const RawBank, name: *const u8, name_length: usize) -> RawReply;
    pub fn hg_bank_tenant_name(
        bank: *const RawBank,
        tenant: u32,
        room: *mut u8,
        room_length: usize,
    ) -> RawReply;
    pub fn hg_service_open(
        service: *mut RawService,
        policy: *const u8,
        policy_length: usize,
        room: *mut u8,
        room_length: usize,
    ) -> RawReply;
    pub fn hg_service_worker(
        service: *mut RawService,
        number: u32,
        worker: *mut RawWorker,
    ) -> RawReply;
    pub fn hg_service_close(service: *mut RawService, core: *mut RawCore) -> RawReply;
    pub fn hg_service_drop(service: *mut RawService) -> RawReply;
    pub fn hg_service_workers(service: *mut RawService) -> RawReply;
    pub fn hg_service_segments(service: *mut RawService) -> RawReply;
    pub fn hg_service_tenant(
        service: *mut RawService,
        name: *const u8,
        name_length: usize,
    ) -> RawReply;
    pub fn hg_service_arena(
        service: *mut RawService,
        name: *const u8,
        name_length: usize,
    ) -> RawReply;
    pub fn hg_worker_alloc(worker: *mut RawWorker, actor: u32, arena: u32, bytes: u64) -> RawReply;
    pub fn hg_worker_free(worker: *mut RawWorker, actor: u32, block: u64) -> RawReply;
    pub fn hg_worker_read(worker: *mut RawWorker, actor: u32, block: u64, index: u32) -> RawReply;
    pub fn hg_worker_write(
        worker: *mut RawWorker,
        actor: u32,
        block: u64,
        index: u32,
        value: u64,
    ) -> RawReply;
    pub fn hg_worker_look(worker: *mut RawWorker, actor: u32, place: u32) -> RawReply;
    pub fn hg_worker_collect(worker: *mut RawWorker) -> RawReply;
    pub fn hg_worker_deliver(worker: *mut RawWorker) -> RawReply;
    pub fn hg_worker_take(worker: *mut RawWorker, segment: u32) -> RawReply;
    pub fn hg_worker_refill(worker: *mut RawWorker, arena: u32) -> RawReply;
    pub fn hg_worker_abandon(worker: *mut RawWorker, segment: u32) -> RawReply;
    pub fn hg_worker_read_words(
        worker: *mut RawWorker,
        actor: u32,
        block: u64,
        first: u32,
        room: *mut u64,
        count: usize,
    ) -> RawReply;
    pub fn hg_worker_write_words(
        worker: *mut RawWorker,
        actor: u32,
        block: u64,
        first: u32,
        words: *const u64,
        count: usize,
    ) -> RawReply;
    pub fn hg_worker_read_bytes(
        worker: *mut RawWorker,
        actor: u32,
        block: u64,
        first: u64,
        room: *mut u8,
        count: usize,
    ) -> RawReply;
    pub fn hg_worker_write_bytes(
        worker: *mut RawWorker,
        actor: u32,
        block: u64,
        first: u64,
        bytes: *const u8,
        count: usize,
    ) -> RawReply;
    pub fn hg_worker_list(
        worker: *mut RawWorker,
        actor: u32,
        room: *mut RawReply,
        count: usize,
    ) -> RawReply;
    pub fn hg_worker_number(worker: *mut RawWorker) -> RawReply;
    pub fn hg_worker_holds(worker: *mut RawWorker, segment: u32) -> RawReply;
    pub fn hg_worker_hand(worker: *mut RawWorker) -> RawReply;
    pub fn hg_worker_leave(worker: *mut RawWorker) -> RawReply;
    pub fn hg_worker_drop(worker: *mut RawWorker) -> RawReply;
    pub fn hg_bank_service_open(
        service: *mut RawBankService,
        policy: *const u8,
        policy_length: usize,
        cores: u32,
        room: *mut u8,
        room_length: usize,
    ) -> RawReply;
    pub fn hg_bank_service_worker(
        service: *mut RawBankService,
        number: u32,
        worker: *mut RawBankWorker,
    ) -> RawReply;
    pub fn hg_bank_service_close(service: *mut RawBankService, bank: *mut RawBank) -> RawReply;
    pub fn hg_bank_service_drop(service: *mut RawBankService) -> RawReply;
    pub fn hg_bank_service_cores(service: *mut RawBankService) -> RawReply;
    pub fn hg_bank_service_workers(service: *mut RawBankService) -> RawReply;
    pub fn hg_bank_service_segments(service: *mut RawBankService) -> RawReply;
    pub fn hg_bank_service_tenant(
        service: *mut RawBankService,
        name: *const u8,
        name_length: usize,
    ) -> RawReply;
    pub fn hg_bank_service_arena(
        service: *mut RawBankService,
        name: *const u8,
        name_length: usize,
    ) -> RawReply;
    pub fn hg_bank_worker_alloc(
        worker: *mut RawBankWorker,
        actor: u32,
        arena: u32,
        bytes: u64,
    ) -> RawReply;
    pub fn hg_bank_worker_free(
        worker: *mut RawBankWorker,
        actor: u32,
        block: RawBankHandle,
    ) -> RawReply;
    pub fn hg_bank_worker_read(
        worker: *mut RawBankWorker,
        actor: u32,
        block: RawBankHandle,
        index: u32,
    ) -> RawReply;
    pub fn hg_bank_worker_write(
        worker: *mut RawBankWorker,
        actor: u32,
        block: RawBankHandle,
        index: u32,
        value: u64,
    ) -> RawReply;
    pub fn hg_bank_worker_look(
        worker: *mut RawBankWorker,
        actor: u32,
        core: u32,
        place: u32,
    ) -> RawReply;
    pub fn hg_bank_worker_collect(worker: *mut RawBankWorker, core: u32) -> RawReply;
    pub fn hg_bank_worker_deliver(worker: *mut RawBankWorker, core: u32) -> RawReply;
    pub fn hg_bank_worker_take(worker: *mut RawBankWorker, core: u32, segment: u32) -> RawReply;
    pub fn hg_bank_worker_refill(worker: *mut RawBankWorker, arena: u32) -> RawReply;
    pub fn hg_bank_worker_abandon(worker: *mut RawBankWorker, core: u32, segment: u32) -> RawReply;
    pub fn hg_bank_worker_list(
        worker: *mut RawBankWorker,
        core: u32,
        actor: u32,
        room: *mut RawReply,
        count: usize,
    ) -> RawReply;
    pub fn hg_bank_worker_number(worker: *mut RawBankWorker) -> RawReply;
    pub fn hg_bank_worker_cores(worker: *mut RawBankWorker) -> RawReply;
    pub fn hg_bank_worker_holds(worker: *mut RawBankWorker, core: u32, segment: u32) -> RawReply;
    pub fn hg_bank_worker_hand(worker: *mut RawBankWorker, core: u32) -> RawReply;
    pub fn hg_bank_worker_charge(worker: *mut RawBankWorker, tenant: u32) -> RawReply;
    pub fn hg_bank_worker_leave(worker: *mut RawBankWorker) -> RawReply;
    pub fn hg_bank_worker_drop(worker: *mut RawBankWorker) -> RawReply;
}

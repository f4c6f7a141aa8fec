//! The declarations of `nd.h` and `nd_hear.h` that the crate needs, under their names there. `bindings/check` has gcc compare them with the headers, as
//! it compares the headers with the library's source. `nd.h` documents each field and function.
#![allow(non_camel_case_types, dead_code)]

pub const ND_DONE: i32 = 0;
pub const ND_NOTHING: i32 = 1;
pub const ND_NO_MEMORY: i32 = -1;
pub const ND_INVALID: i32 = -3;
pub const ND_PAST: i32 = -4;
pub const ND_NO_ROOM: i32 = -5;

pub const ND_MOMENT_LIMIT: u64 = 1 << 62;
pub const ND_FOREVER: u64 = u64::MAX;
pub const ND_LIFETIME_INFINITE: u32 = u32::MAX;
pub const ND_BUFFER_BYTES: usize = 1514;

pub const ND_DRAWS_SEED: u8 = 0;
pub const ND_DRAWS_WORD: u8 = 1;

pub const ND_POLICY_PARTS: u32 = 1;
pub const ND_POLICY_SPEAKERS: u32 = 2;
pub const ND_POLICY_TIMERS: u32 = 4;
pub const ND_POLICY_SELF: u32 = 8;
pub const ND_POLICY_UNICAST: u32 = 16;
pub const ND_POLICY_UNFORMED: u32 = 32;
pub const ND_POLICY_ASKED: u32 = 512;
pub const ND_POLICY_LIFETIMES: u32 = 2048;
pub const ND_POLICY_UNREDIRECTED: u32 = 4096;
pub const ND_POLICY_STRICT: u32 = 8192;

pub const ND_HOP_DIRECT: u32 = 1;
pub const ND_HOP_VIA: u32 = 2;

pub const ND_HEARING_VALID: u32 = 1;
pub const ND_HEARING_OTHER: u32 = 2;

pub type nd_addr = [u8; 16];
pub type nd_mac = [u8; 6];

#[repr(C)]
pub struct nd_node {
    pub is_open: bool,
    pub at: *mut u8,
}

#[repr(C)]
#[derive(Clone, Copy, Debug, Default)]
pub struct nd_limits {
    pub neighbours: u16,
    pub routers: u16,
    pub prefixes: u16,
    pub addresses: u16,
    pub servers: u16,
    pub names: u16,
    pub redirects: u16,
    pub destinations: u16,
    pub offers: u16,
    pub routes: u16,
    pub waiting: u16,
    pub reserved: [u16; 5],
}

#[repr(C)]
#[derive(Clone, Copy, Debug, Default)]
pub struct nd_options {
    pub role: u32,
    pub mac: nd_mac,
    pub transmits: u8,
    pub draws: u8,
    pub policies: u32,
    pub start: u64,
    pub seed: u64,
    pub limits: nd_limits,
    pub lease_version: u64,
    pub identifier: [u8; 8],
}

#[repr(C)]
#[derive(Clone, Copy, Debug, Default)]
pub struct nd_out {
    pub moment: u64,
    pub length: usize,
    pub kind: u32,
    pub code: u32,
    pub limit: u32,
    pub changes: u32,
    pub address: nd_addr,
}

#[repr(C)]
#[derive(Clone, Copy, Debug, Default)]
pub struct nd_own_address {
    pub address: nd_addr,
    pub valid_lifetime: u32,
    pub preferred_lifetime: u32,
}

#[repr(C)]
#[derive(Clone, Copy, Debug, Default)]
pub struct nd_next_hop_row {
    pub address: nd_addr,
    pub hop: u32,
    pub reserved: u32,
}

#[repr(C)]
#[derive(Clone, Copy, Debug, Default)]
pub struct nd_message {
    pub source: nd_addr,
    pub destination: nd_addr,
    pub hop_limit: u8,
    pub checksum_good: u8,
    pub reserved: u16,
}

#[repr(C)]
#[derive(Clone, Copy, Debug, Default)]
pub struct nd_path {
    pub until: u64,
    pub version: u64,
    pub next_hop: nd_addr,
    pub mac: nd_mac,
    pub has_mac: u8,
    pub reserved: u8,
    pub hop: u32,
    pub state: u32,
}

#[repr(C)]
#[derive(Clone, Copy, Debug, Default)]
pub struct nd_advertising {
    pub min_interval: u32,
    pub max_interval: u32,
    pub lifetime: u32,
    pub reachable_time: u32,
    pub retrans_timer: u32,
    pub mtu: u32,
    pub hop_limit: u8,
    pub managed: u8,
    pub other: u8,
    pub preference: u8,
    pub reserved: u32,
}

#[repr(C)]
#[derive(Clone, Copy, Debug, Default)]
pub struct nd_offer_row {
    pub prefix: nd_addr,
    pub bits: u32,
    pub valid_lifetime: u32,
    pub preferred_lifetime: u32,
    pub on_link: u8,
    pub autonomous: u8,
    pub reserved: [u8; 2],
}

#[repr(C)]
#[derive(Clone, Copy, Debug, Default)]
pub struct nd_route_row {
    pub prefix: nd_addr,
    pub router: nd_addr,
    pub bits: u32,
    pub hop: u32,
}

#[repr(C)]
#[derive(Clone, Copy, Debug, Default)]
pub struct nd_neighbour_row {
    pub reachable_left: u64,
    pub address: nd_addr,
    pub mac: nd_mac,
    pub has_mac: u8,
    pub is_router: u8,
    pub state: u32,
    pub reserved: u32,
}

#[repr(C)]
#[derive(Clone, Copy, Debug, Default)]
pub struct nd_router_row {
    pub left: u64,
    pub address: nd_addr,
    pub preference: u32,
    pub reserved: u32,
}

#[repr(C)]
#[derive(Clone, Copy, Debug, Default)]
pub struct nd_prefix_row {
    pub left: u64,
    pub prefix: nd_addr,
    pub bits: u32,
    pub reserved: u32,
}

#[repr(C)]
#[derive(Clone, Copy, Debug, Default)]
pub struct nd_address_row {
    pub preferred_left: u64,
    pub valid_left: u64,
    pub address: nd_addr,
    pub state: u32,
    pub by_hand: u8,
    pub reserved: [u8; 3],
}

#[repr(C)]
#[derive(Clone, Copy, Debug, Default)]
pub struct nd_server_row {
    pub left: u64,
    pub address: nd_addr,
}

#[repr(C)]
#[derive(Clone, Copy, Debug)]
pub struct nd_name_row {
    pub left: u64,
    pub length: u32,
    pub reserved: u32,
    pub text: [u8; 256],
}

impl Default for nd_name_row {
    fn default() -> nd_name_row {
        nd_name_row { left: 0, length: 0, reserved: 0, text: [0; 256] }
    }
}

#[repr(C)]
#[derive(Clone, Copy, Debug, Default)]
pub struct nd_redirect_row {
    pub destination: nd_addr,
    pub target: nd_addr,
}

#[repr(C)]
#[derive(Clone, Copy, Debug, Default)]
pub struct nd_parameters_row {
    pub reachable_time: u64,
    pub base_reachable_time: u32,
    pub retrans_timer: u32,
    pub mtu: u32,
    pub hop_limit: u8,
    pub managed: u8,
    pub other: u8,
    pub reserved: u8,
}

#[repr(C)]
#[derive(Clone, Copy, Debug, Default)]
pub struct nd_counts_row {
    pub neighbours: u32,
    pub routers: u32,
    pub prefixes: u32,
    pub addresses: u32,
    pub servers: u32,
    pub names: u32,
    pub redirects: u32,
    pub offers: u32,
    pub routes: u32,
    pub reserved: u32,
    pub limits: nd_limits,
}

#[repr(C)]
#[derive(Clone, Copy, Debug, Default)]
pub struct nd_heard {
    pub source: nd_addr,
    pub destination: nd_addr,
    pub target: nd_addr,
    pub redirected: nd_addr,
    pub hearing: u32,
    pub why: u32,
    pub message_type: u32,
    pub next_header: u32,
    pub options: u32,
    pub options_bytes: u32,
    pub reachable_time: u32,
    pub retrans_timer: u32,
    pub router_lifetime: u32,
    pub hop_limit: u8,
    pub managed: u8,
    pub other: u8,
    pub preference: u8,
    pub router: u8,
    pub solicited: u8,
    pub override_flag: u8,
    pub reserved: u8,
}

#[rustfmt::skip]
extern "C" {
    pub fn nd_version() -> u32;
    pub fn nd_refusal_of(status: i32) -> u32;
    pub fn nd_limit_of(status: i32) -> u32;
    pub fn nd_node_bytes(limits: *const nd_limits) -> usize;
    pub fn nd_pool_bytes(limits: *const nd_limits, longest: usize) -> usize;
    pub fn nd_open(node: *mut nd_node, options: *const nd_options, size: usize) -> i32;
    pub fn nd_close(node: *mut nd_node);
    pub fn nd_last_moment(node: *mut nd_node) -> u64;
    pub fn nd_next_due(node: *mut nd_node) -> u64;
    pub fn nd_lease_version(node: *mut nd_node) -> u64;
    pub fn nd_pass(node: *mut nd_node, now: u64) -> i32;
    pub fn nd_receive(node: *mut nd_node, now: u64, frame: *const u8, length: usize) -> i32;
    pub fn nd_receive_message(node: *mut nd_node, now: u64, message: *const nd_message, bytes: *const u8, length: usize) -> i32;
    pub fn nd_send(node: *mut nd_node, now: u64, source: *const nd_addr, destination: *const nd_addr, next_header: u8, payload: *const u8, length: usize) -> i32;
    pub fn nd_confirm(node: *mut nd_node, now: u64, neighbour: *const nd_addr) -> i32;
    pub fn nd_confirm_to(node: *mut nd_node, now: u64, destination: *const nd_addr, least: u64) -> i32;
    pub fn nd_forget(node: *mut nd_node, now: u64, neighbour: *const nd_addr) -> i32;
    pub fn nd_clear(node: *mut nd_node, now: u64, table: u32) -> i32;
    pub fn nd_add_address(node: *mut nd_node, now: u64, own: *const nd_own_address) -> i32;
    pub fn nd_remove_address(node: *mut nd_node, now: u64, address: *const nd_addr) -> i32;
    pub fn nd_next_hop(node: *mut nd_node, now: u64, destination: *const nd_addr, row: *mut nd_next_hop_row) -> i32;
    pub fn nd_resolve(node: *mut nd_node, now: u64, destination: *const nd_addr, path: *mut nd_path) -> i32;
    pub fn nd_advertise(node: *mut nd_node, now: u64, settings: *const nd_advertising) -> i32;
    pub fn nd_advertise_prefix(node: *mut nd_node, now: u64, offer: *const nd_offer_row) -> i32;
    pub fn nd_add_route(node: *mut nd_node, now: u64, route: *const nd_route_row) -> i32;
    pub fn nd_stop_advertising(node: *mut nd_node, now: u64) -> i32;
    pub fn nd_poll(node: *mut nd_node, out: *mut nd_out, buffer: *mut u8, size: usize) -> i32;
    pub fn nd_neighbours(node: *mut nd_node, now: u64, rows: *mut nd_neighbour_row, room: usize, count: *mut usize) -> i32;
    pub fn nd_routers(node: *mut nd_node, now: u64, rows: *mut nd_router_row, room: usize, count: *mut usize) -> i32;
    pub fn nd_prefixes(node: *mut nd_node, now: u64, rows: *mut nd_prefix_row, room: usize, count: *mut usize) -> i32;
    pub fn nd_addresses(node: *mut nd_node, now: u64, rows: *mut nd_address_row, room: usize, count: *mut usize) -> i32;
    pub fn nd_servers(node: *mut nd_node, now: u64, rows: *mut nd_server_row, room: usize, count: *mut usize) -> i32;
    pub fn nd_names(node: *mut nd_node, now: u64, rows: *mut nd_name_row, room: usize, count: *mut usize) -> i32;
    pub fn nd_redirects(node: *mut nd_node, now: u64, rows: *mut nd_redirect_row, room: usize, count: *mut usize) -> i32;
    pub fn nd_offers(node: *mut nd_node, now: u64, rows: *mut nd_offer_row, room: usize, count: *mut usize) -> i32;
    pub fn nd_routes(node: *mut nd_node, now: u64, rows: *mut nd_route_row, room: usize, count: *mut usize) -> i32;
    pub fn nd_neighbour_at(node: *mut nd_node, now: u64, index: usize, row: *mut nd_neighbour_row) -> i32;
    pub fn nd_neighbour_of(node: *mut nd_node, now: u64, address: *const nd_addr, row: *mut nd_neighbour_row) -> i32;
    pub fn nd_router_at(node: *mut nd_node, now: u64, index: usize, row: *mut nd_router_row) -> i32;
    pub fn nd_prefix_at(node: *mut nd_node, now: u64, index: usize, row: *mut nd_prefix_row) -> i32;
    pub fn nd_address_at(node: *mut nd_node, now: u64, index: usize, row: *mut nd_address_row) -> i32;
    pub fn nd_server_at(node: *mut nd_node, now: u64, index: usize, row: *mut nd_server_row) -> i32;
    pub fn nd_name_at(node: *mut nd_node, now: u64, index: usize, row: *mut nd_name_row) -> i32;
    pub fn nd_redirect_at(node: *mut nd_node, now: u64, index: usize, row: *mut nd_redirect_row) -> i32;
    pub fn nd_parameters_of(node: *mut nd_node, now: u64, row: *mut nd_parameters_row) -> i32;
    pub fn nd_offer_at(node: *mut nd_node, now: u64, index: usize, row: *mut nd_offer_row) -> i32;
    pub fn nd_route_at(node: *mut nd_node, now: u64, index: usize, row: *mut nd_route_row) -> i32;
    pub fn nd_advertising_of(node: *mut nd_node, now: u64, row: *mut nd_advertising) -> i32;
    pub fn nd_counts_of(node: *mut nd_node, now: u64, row: *mut nd_counts_row) -> i32;
    pub fn nd_hear(frame: *const u8, length: usize, role: u32, heard: *mut nd_heard) -> i32;
}

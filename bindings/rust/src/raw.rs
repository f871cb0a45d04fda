//! The functions of bindings/c/kifzaro.h.

#[repr(C)]
pub struct Handle {
    at: *mut u8,
    kind: u64,
}

impl Handle {
    pub const INIT: Handle = Handle { at: std::ptr::null_mut(), kind: 0 };
}

extern "C" {
    pub fn kf_version() -> *const std::ffi::c_char;
    pub fn kf_build() -> *const std::ffi::c_char;
    pub fn kf_status_text(status: u32) -> *const std::ffi::c_char;
    pub fn kf_client_new(client: *mut Handle, keys: *const u8, keys_len: usize, key: u64, seed: *const u8) -> u32;
    pub fn kf_client_new_temp(client: *mut Handle, keys: *const u8, keys_len: usize, temp: u64, perm: u64, expires: u64, seed: *const u8) -> u32;
    pub fn kf_client_free(client: *mut Handle);
    pub fn kf_client_submit(client: *mut Handle, body: *const u8, len: usize, after: u64, call: *mut u64) -> u32;
    pub fn kf_client_attach(client: *mut Handle) -> u32;
    pub fn kf_client_handle_packet(client: *mut Handle, now: u64, packet: *const u8, len: usize) -> u32;
    pub fn kf_client_poll_transmit(client: *mut Handle, now: u64, room: *mut u8, room_len: usize, len: *mut usize) -> u32;
    pub fn kf_client_renew(client: *mut Handle) -> u32;
    pub fn kf_client_end(client: *mut Handle) -> u32;
    pub fn kf_client_tick(client: *mut Handle) -> u32;
    pub fn kf_client_ping(client: *mut Handle, id: u64) -> u32;
    pub fn kf_client_ask_salts(client: *mut Handle, count: u32) -> u32;
    pub fn kf_client_drop_answer(client: *mut Handle, call: u64) -> u32;
    pub fn kf_client_state(client: *mut Handle, call: u64, state: *mut u32, code: *mut u32) -> u32;
    pub fn kf_client_take_reply(client: *mut Handle, call: u64, room: *mut u8, room_len: usize, len: *mut usize) -> u32;
    pub fn kf_client_calls_decided(client: *mut Handle, decided: *mut i32) -> u32;
    pub fn kf_client_session(client: *mut Handle, session: *mut u64) -> u32;
    pub fn kf_server_new(server: *mut Handle, keys: *const u8, keys_len: usize, seed: *const u8) -> u32;
    pub fn kf_server_free(server: *mut Handle);
    pub fn kf_server_handle_packet(server: *mut Handle, now: u64, packet: *const u8, len: usize, key: *mut u64, session: *mut u64) -> u32;
    pub fn kf_server_tick(server: *mut Handle, now: u64) -> u32;
    pub fn kf_server_attach(server: *mut Handle, key: u64, session: u64, now: u64) -> u32;
    pub fn kf_server_restart(server: *mut Handle) -> u32;
    pub fn kf_server_ready(server: *mut Handle, ready: *mut u64) -> u32;
    pub fn kf_server_next_request(server: *mut Handle, there: *mut i32, room: *mut u8, room_len: usize, len: *mut usize) -> u32;
    pub fn kf_server_answer(server: *mut Handle, now: u64, reply: *const u8, len: usize) -> u32;
    pub fn kf_server_poll_transmit(server: *mut Handle, key: *mut u64, session: *mut u64, room: *mut u8, room_len: usize, len: *mut usize) -> u32;
}

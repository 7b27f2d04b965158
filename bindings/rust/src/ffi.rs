// The functions of libboughladder.a, as include/boughladder.h declares them. A slice goes as a pointer and a length.

#[repr(C)]
pub struct Reading {
    pub refusal: u16,
    pub kind: u16,
    pub permission: u32,
    pub left: i64,
}

#[repr(C)]
pub struct Finding {
    pub refusal: u32,
    pub kind: u32,
    pub place: usize,
}

#[repr(C)]
pub struct Setting {
    pub refusal: u32,
    pub visits: usize,
    pub moves: usize,
}

#[repr(C)]
pub struct Move {
    pub from: usize,
    pub tag: u32,
    pub to: usize,
}

#[repr(C)]
pub struct Plan {
    pub refusal: u32,
    pub count: usize,
    pub place: usize,
    pub slot: usize,
    pub moves: [Move; 4],
}

#[repr(C)]
pub struct Evicting {
    pub refusal: u32,
    pub victim: u64,
    pub looked: usize,
    pub hand: usize,
}

#[repr(C)]
pub struct Listing {
    pub refusal: u32,
    pub count: usize,
}

#[repr(C)]
pub struct Judgement {
    pub condition: u32,
    pub at: usize,
}

#[rustfmt::skip]
extern "C" {
    pub fn boughladder_fresh(s: *mut u32, sl: usize, c: *mut u32, cl: usize, i: *mut u64, il: usize) -> u32;
    pub fn boughladder_read(s: *const u32, sl: usize, c: *const u32, cl: usize, i: *const u64, il: usize,
        animal: u64, limit: u64, now: u64) -> Reading;
    pub fn boughladder_serve(s: *const u32, sl: usize, c: *const u32, cl: usize, i: *mut u64, il: usize,
        animal: u64, limit: u64, now: u64) -> Reading;
    pub fn boughladder_find(s: *const u32, sl: usize, c: *const u32, cl: usize, i: *const u64, il: usize,
        animal: u64) -> Finding;
    pub fn boughladder_set(s: *mut u32, sl: usize, c: *mut u32, cl: usize, i: *mut u64, il: usize,
        animal: u64, permission: u32, issued: u64, now: u64) -> Setting;
    pub fn boughladder_set_cut(s: *mut u32, sl: usize, c: *mut u32, cl: usize, i: *mut u64, il: usize,
        animal: u64, permission: u32, issued: u64, now: u64, k: u64) -> Setting;
    pub fn boughladder_plan(s: *const u32, sl: usize, c: *const u32, cl: usize, i: *const u64, il: usize,
        animal: u64, permission: u32, issued: u64, now: u64) -> Plan;
    pub fn boughladder_step_move(s: *mut u32, sl: usize, c: *mut u32, cl: usize, i: *const u64, il: usize,
        planned: Move, animal: u64, permission: u32, issued: u64, now: u64) -> u32;
    pub fn boughladder_step_enter(s: *mut u32, sl: usize, c: *mut u32, cl: usize, i: *mut u64, il: usize,
        place: usize, slot: usize, animal: u64, permission: u32, issued: u64, now: u64) -> u32;
    pub fn boughladder_delete(s: *mut u32, sl: usize, c: *mut u32, cl: usize, i: *mut u64, il: usize,
        animal: u64) -> u32;
    pub fn boughladder_delete_cut(s: *mut u32, sl: usize, c: *mut u32, cl: usize, i: *mut u64, il: usize,
        animal: u64, k: u64) -> u32;
    pub fn boughladder_evict(s: *mut u32, sl: usize, c: *mut u32, cl: usize, i: *mut u64, il: usize,
        hand: usize) -> Evicting;
    pub fn boughladder_evict_cut(s: *mut u32, sl: usize, c: *mut u32, cl: usize, i: *mut u64, il: usize,
        hand: usize, k: u64) -> Evicting;
    pub fn boughladder_list(s: *const u32, sl: usize, c: *const u32, cl: usize, i: *const u64, il: usize,
        buffer: *mut u8, length: usize) -> Listing;
    pub fn boughladder_plain_read(i: *const u64, il: usize, animal: u64, limit: u64, now: u64) -> Reading;
    pub fn boughladder_judge(s: *const u32, sl: usize, c: *const u32, cl: usize, i: *const u64, il: usize) -> Judgement;
}

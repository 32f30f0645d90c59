//! The declarations of include/egretfold.h, one for one and in its order. An
//! array of a fixed length is a reference here (to C the same as a pointer), so
//! that its length is checked; one with a length of its own is a pointer.

use crate::lengths::{CELLS, CHANNELS, DAYS, LOG, MARKS, OWN, SHARED, SLOTS, SUMS, TALLIES};

extern "C" {
    pub fn egretfold_session_begin(
        own: &mut [u32; OWN],
        tallies: &mut [u64; TALLIES],
        shared: &mut [u32; SHARED],
        edition: u32,
    ) -> u32;

    pub fn egretfold_session_word(
        own: &mut [u32; OWN],
        tallies: &mut [u64; TALLIES],
        shared: &mut [u32; SHARED],
        word: u32,
        command: &mut [u32; 6],
    ) -> u32;

    pub fn egretfold_session_feed(
        own: &mut [u32; OWN],
        tallies: &mut [u64; TALLIES],
        shared: &mut [u32; SHARED],
        words: *const u32,
        length: usize,
        fed: &mut [u64; 2],
    ) -> u32;

    pub fn egretfold_session_status(own: &[u32; OWN], status: &mut [u32; 6]) -> u32;

    pub fn egretfold_session_tallies(tallies: &[u64; TALLIES], counts: &mut [u64; 2]) -> u32;

    pub fn egretfold_session_domain(own: &[u32; OWN], domain: &mut [u32; 5]) -> u32;

    pub fn egretfold_session_format(
        own: &[u32; OWN],
        shared: &[u32; SHARED],
        header: u32,
        number: u32,
        format: &mut [u32; 4],
    ) -> u32;

    pub fn egretfold_session_masks(shared: &[u32; SHARED], masks: &mut [u32; 5]) -> u32;

    pub fn egretfold_pair_begin(
        own0: &mut [u32; OWN],
        tallies0: &mut [u64; TALLIES],
        own1: &mut [u32; OWN],
        tallies1: &mut [u64; TALLIES],
        shared: &mut [u32; SHARED],
        inputs: u32,
        outputs: u32,
        edition: u32,
    ) -> u32;

    pub fn egretfold_pair_feed(
        own0: &mut [u32; OWN],
        tallies0: &mut [u64; TALLIES],
        own1: &mut [u32; OWN],
        tallies1: &mut [u64; TALLIES],
        shared: &mut [u32; SHARED],
        words: *const u32,
        length: usize,
        parties: *const u32,
        groups: usize,
        fed: &mut [u64; 6],
    ) -> u32;

    pub fn egretfold_log_begin(
        log: &mut [u32; LOG],
        marks: &mut [u64; MARKS],
        own: &mut [u32; OWN],
        tallies: &mut [u64; TALLIES],
        shared: &mut [u32; SHARED],
        edition: u32,
    ) -> u32;

    pub fn egretfold_log_feed(
        log: &mut [u32; LOG],
        marks: &mut [u64; MARKS],
        own: &mut [u32; OWN],
        tallies: &mut [u64; TALLIES],
        shared: &mut [u32; SHARED],
        bytes: *const u8,
        length: usize,
        taken: &mut [u64; 1],
    ) -> u32;

    pub fn egretfold_log_byte(
        log: &mut [u32; LOG],
        marks: &mut [u64; MARKS],
        own: &mut [u32; OWN],
        tallies: &mut [u64; TALLIES],
        shared: &mut [u32; SHARED],
        byte: u8,
    ) -> u32;

    pub fn egretfold_log_status(log: &[u32; LOG], status: &mut [u32; 7]) -> u32;

    pub fn egretfold_log_part(
        log: &[u32; LOG],
        marks: &[u64; MARKS],
        tallies: &[u64; TALLIES],
        part: u32,
        counts: &mut [u64; 2],
    ) -> u32;

    pub fn egretfold_log_trim(log: &mut [u32; LOG], marks: &mut [u64; MARKS]) -> u32;

    pub fn egretfold_score_lease(edition: u32, first_day: u32, days: u32, owed: u32) -> u32;

    pub fn egretfold_score_month(
        log: &[u32; LOG],
        marks: &[u64; MARKS],
        tallies: &[u64; TALLIES],
        first_day: u32,
        days: u32,
        owed: u32,
        claimed: &mut [u64; DAYS],
        served: &mut [u64; DAYS],
        month: &mut [u64; 3],
    ) -> u32;

    pub fn egretfold_fleet_report(
        edition: u32,
        logs: *const u8,
        length: usize,
        numbers: *const u64,
        count: usize,
        room: *mut u64,
        room_length: usize,
    ) -> u32;

    pub fn egretfold_fleet_begin(sums: &mut [u64; SUMS], edition: u32) -> u32;

    pub fn egretfold_fleet_add(
        sums: &mut [u64; SUMS],
        log: &[u32; LOG],
        marks: &[u64; MARKS],
        own: &[u32; OWN],
        tallies: &[u64; TALLIES],
        first_day: u32,
        days: u32,
        owed: u32,
    ) -> u32;

    pub fn egretfold_fleet_add_month(
        sums: &mut [u64; SUMS],
        served: u64,
        owed: u64,
        silent: u64,
    ) -> u32;

    pub fn egretfold_fleet_join(sums: &mut [u64; SUMS], other: &[u64; SUMS]) -> u32;

    pub fn egretfold_fleet_tell(sums: &[u64; SUMS], room: &mut [u64; 5]) -> u32;

    pub fn egretfold_fleet_check(sums: &[u64; SUMS]) -> bool;

    pub fn egretfold_command_parameters(header: u32, count: &mut [u32; 1]) -> u32;

    pub fn egretfold_command_write(
        header: u32,
        fields: &[u32; 4],
        room: *mut u32,
        length: usize,
        written: &mut [u32; 1],
    ) -> u32;

    pub fn egretfold_layout(
        base: u32,
        pitch: u32,
        height: u32,
        size: u32,
        tiled: bool,
        window: &mut [u32; 2],
    ) -> u32;

    pub fn egretfold_translate(
        base: u32,
        pitch: u32,
        height: u32,
        size: u32,
        tiled: bool,
        x: u32,
        y: u32,
        address: &mut [u32; 2],
    ) -> u32;

    pub fn egretfold_locate(
        base: u32,
        pitch: u32,
        height: u32,
        size: u32,
        tiled: bool,
        address: u32,
        pair: &mut [u32; 3],
    ) -> u32;

    pub fn egretfold_element_read(
        base: u32,
        pitch: u32,
        height: u32,
        size: u32,
        tiled: bool,
        x: u32,
        y: u32,
        memory: *const u8,
        length: usize,
        first: u32,
        bytes: &mut [u8; 16],
    ) -> u32;

    pub fn egretfold_element_write(
        base: u32,
        pitch: u32,
        height: u32,
        size: u32,
        tiled: bool,
        x: u32,
        y: u32,
        memory: *mut u8,
        length: usize,
        first: u32,
        data: *const u8,
        data_length: usize,
    ) -> u32;

    pub fn egretfold_element_superfine(
        base: u32,
        format: u32,
        height: u32,
        x: u32,
        y: u32,
        memory: *const u8,
        length: usize,
        first: u32,
        bytes: &mut [u8; 16],
        count: &mut [u32; 1],
    ) -> u32;

    pub fn egretfold_conditional_test(
        shared: &[u32; SHARED],
        value: u32,
        x: u32,
        y: u32,
        memory: *const u8,
        length: usize,
        first: u32,
        passed: &mut [u32; 1],
    ) -> u32;

    pub fn egretfold_conditional_survey(
        shared: &[u32; SHARED],
        value: u32,
        i0: u32,
        j0: u32,
        i1: u32,
        j1: u32,
        memory: *const u8,
        length: usize,
        first: u32,
        room: *mut u8,
        room_length: usize,
        passed: &mut [u32; 1],
    ) -> u32;

    pub fn egretfold_picture_paint(
        base: u32,
        pitch: u32,
        height: u32,
        size: u32,
        tiled: bool,
        x: u32,
        y: u32,
        columns: u32,
        rows: u32,
        memory: *mut u8,
        length: usize,
        first: u32,
        room: *const u8,
        room_length: usize,
    ) -> u32;

    pub fn egretfold_picture_copy_out(
        base: u32,
        pitch: u32,
        height: u32,
        size: u32,
        tiled: bool,
        x: u32,
        y: u32,
        columns: u32,
        rows: u32,
        memory: *const u8,
        length: usize,
        first: u32,
        room: *mut u8,
        room_length: usize,
    ) -> u32;

    pub fn egretfold_picture_row(
        base: u32,
        pitch: u32,
        height: u32,
        size: u32,
        tiled: bool,
        x: u32,
        y: u32,
        addresses: *mut u32,
        columns: usize,
    ) -> u32;

    pub fn egretfold_program_load(
        words: *const u32,
        length: usize,
        firsts: &mut [u32; SLOTS],
        seconds: &mut [u32; SLOTS],
        slots: &mut [u32; 1],
    ) -> u32;

    pub fn egretfold_group_begin(size: u32, mode: u32, cells: &mut [u32; CELLS]) -> u32;

    pub fn egretfold_group_step(
        firsts: &[u32; SLOTS],
        seconds: &[u32; SLOTS],
        slots: u32,
        cells: &mut [u32; CELLS],
        alu: u32,
        predicate: u32,
        booleans: u32,
        integers: *const u32,
        numbers: usize,
        taken: &mut [u32; 2],
    ) -> u32;

    pub fn egretfold_group_run(
        firsts: &[u32; SLOTS],
        seconds: &[u32; SLOTS],
        slots: u32,
        cells: &mut [u32; CELLS],
        masks: *const u32,
        length: usize,
        booleans: u32,
        integers: *const u32,
        numbers: usize,
        report: &mut [u64; 3],
    ) -> u32;

    pub fn egretfold_group_loops(cells: &[u32; CELLS], loops: &mut [u32; 13]);

    pub fn egretfold_group_check(cells: &[u32; CELLS]) -> bool;

    pub fn egretfold_group_kill(
        slots: u32,
        cells: &mut [u32; CELLS],
        mask: u32,
        registers: *const f32,
        floats: usize,
        killed: &mut [u32; 1],
    ) -> u32;

    pub fn egretfold_register_maximum(
        a: &[u32; CHANNELS],
        b: &[u32; CHANNELS],
        maximum: &mut [u32; CHANNELS],
    );

    pub fn egretfold_register_choice(
        a: &[u32; CHANNELS],
        b: &[u32; CHANNELS],
        third: &[u32; CHANNELS],
        choice: &mut [u32; CHANNELS],
    );

    pub fn egretfold_session_check(
        own: &[u32; OWN],
        tallies: &[u64; TALLIES],
        shared: &[u32; SHARED],
    ) -> bool;

    pub fn egretfold_pair_check(
        own0: &[u32; OWN],
        tallies0: &[u64; TALLIES],
        own1: &[u32; OWN],
        tallies1: &[u64; TALLIES],
        shared: &[u32; SHARED],
    ) -> bool;

    pub fn egretfold_log_check(
        log: &[u32; LOG],
        marks: &[u64; MARKS],
        own: &[u32; OWN],
        tallies: &[u64; TALLIES],
        shared: &[u32; SHARED],
    ) -> bool;
}

//! The header words of document 01's commands, by the guide's names. What a header
//! means is asked of the product; here it only has its name.

pub const SET_DOMAIN: u32 = 0xC003_0700;
pub const START_PROGRAM: u32 = 0xC000_0800;
pub const WAIT_FOR_IDLE: u32 = 0xC000_0900;
pub const SET_INST_FMT: u32 = 0xC001_0A00;
pub const SET_INP_FMT: u32 = 0xC003_0B00;
pub const SET_OUT_FMT: u32 = 0xC003_0C00;
pub const SET_COND_OUT_FMT: u32 = 0xC002_0D00;
pub const SET_CONSTF_FMT: u32 = 0xC001_0E00;
pub const SET_CONSTI_FMT: u32 = 0xC001_0F00;
pub const SET_CONSTB_FMT: u32 = 0xC001_1000;
pub const INV_INST_CACHE: u32 = 0xC000_1100;
pub const INV_CONSTF_CACHE: u32 = 0xC000_1200;
pub const INV_CONSTI_CACHE: u32 = 0xC000_1300;
pub const INV_CONSTB_CACHE: u32 = 0xC000_1400;
pub const INV_COND_OUT_CACHE: u32 = 0xC000_1500;
pub const INV_INP_CACHE: u32 = 0xC000_1600;
pub const FLUSH_OUT_CACHE: u32 = 0xC000_1700;
pub const FLUSH_COND_OUT_CACHE: u32 = 0xC000_1800;
pub const SET_OUT_MASK: u32 = 0xC000_1900;
pub const SET_COND_OUT_MASK: u32 = 0xC000_1A00;
pub const SET_COND_TEST: u32 = 0xC000_1B00;

/// Every header with the name of its command, in the order of their operations.
pub const NAMES: [(u32, &str); 21] = [
    (SET_DOMAIN, "set_domain"),
    (START_PROGRAM, "start_program"),
    (WAIT_FOR_IDLE, "wait_for_idle"),
    (SET_INST_FMT, "set_inst_fmt"),
    (SET_INP_FMT, "set_inp_fmt"),
    (SET_OUT_FMT, "set_out_fmt"),
    (SET_COND_OUT_FMT, "set_cond_out_fmt"),
    (SET_CONSTF_FMT, "set_constf_fmt"),
    (SET_CONSTI_FMT, "set_consti_fmt"),
    (SET_CONSTB_FMT, "set_constb_fmt"),
    (INV_INST_CACHE, "inv_inst_cache"),
    (INV_CONSTF_CACHE, "inv_constf_cache"),
    (INV_CONSTI_CACHE, "inv_consti_cache"),
    (INV_CONSTB_CACHE, "inv_constb_cache"),
    (INV_COND_OUT_CACHE, "inv_cond_out_cache"),
    (INV_INP_CACHE, "inv_inp_cache"),
    (FLUSH_OUT_CACHE, "flush_out_cache"),
    (FLUSH_COND_OUT_CACHE, "flush_cond_out_cache"),
    (SET_OUT_MASK, "set_out_mask"),
    (SET_COND_OUT_MASK, "set_cond_out_mask"),
    (SET_COND_TEST, "set_cond_test"),
];

/// The name of the command with this header.
pub const fn name(header: u32) -> Option<&'static str> {
    let mut place = 0;
    while place < NAMES.len() {
        if NAMES[place].0 == header {
            return Some(NAMES[place].1);
        }
        place += 1;
    }
    None
}

#[cfg(test)]
mod tests {
    use super::{name, NAMES};

    #[test]
    fn every_header_of_the_product_has_one_name() {
        // Operations of one to four parameters, with all else as document 01 has it.
        let headers = (0..4).flat_map(|n| (0..256).map(move |op| 3 << 30 | n << 16 | op << 8));
        let known: Vec<u32> = headers
            .filter(|header| crate::parameters(*header).is_ok())
            .collect();
        assert_eq!(known.len(), NAMES.len());
        let mut names: Vec<&str> = known
            .iter()
            .map(|header| name(*header).expect("a name"))
            .collect();
        names.sort_unstable();
        names.dedup();
        assert_eq!(names.len(), NAMES.len());
    }
}

//! Document 01, "Layouts and windows", last two paragraphs: a read, a write and
//! a superfine read of elements in lent memory. The order for all of them is 3,
//! 6, 10, 11.

use crate::address::translate;
use crate::command::{format_word_is_allowed, is_superfine, layout_of, FormatCode};
use crate::layout::{judge, Layout, END_OF_ADDRESSES};
use crate::Answer;

/// The most bytes that may be lent.
const MOST_BYTES: usize = 65_536;

/// "memory is over 65,536 bytes or ends above 2^32": 11, also where the element
/// asked for would fit.
fn judge_memory(length: usize, first: u32) -> Answer<()> {
    if length > MOST_BYTES {
        return Err(11);
    }
    if u64::from(first) + length as u64 > END_OF_ADDRESSES {
        return Err(11);
    }
    Ok(())
}

/// Where in the memory the element at `address` begins; 11 where the memory
/// doesn't hold all its bytes.
fn place_in_memory(address: u32, size: u32, length: usize, first: u32) -> Answer<usize> {
    let (address, first) = (u64::from(address), u64::from(first));
    let end = address + u64::from(size);
    if address < first || end > first + length as u64 {
        return Err(11);
    }
    // Below the memory's length, so it fits.
    Ok((address - first) as usize)
}

/// The s bytes of a pair's element, as they stand.
pub fn read(layout: &Layout, x: u32, y: u32, memory: &[u8], first: u32) -> Answer<Vec<u8>> {
    let address = translate(layout, x, y)?;
    judge_memory(memory.len(), first)?;
    let place = place_in_memory(address, layout.size, memory.len(), first)?;
    Ok(memory[place..place + layout.size as usize].to_vec())
}

/// Puts the data, which must be s bytes, at a pair's element. Only the element's
/// part of the memory is touched.
pub fn write(
    layout: &Layout,
    x: u32,
    y: u32,
    memory: &mut [u8],
    first: u32,
    data: &[u8],
) -> Answer<()> {
    let address = translate(layout, x, y)?;
    judge_memory(memory.len(), first)?;
    if data.len() as u64 != u64::from(layout.size) {
        return Err(11);
    }
    let place = place_in_memory(address, layout.size, memory.len(), first)?;
    for (offset, byte) in data.iter().enumerate() {
        memory[place + offset] = *byte;
    }
    Ok(())
}

/// The layout that a superfine read is about. 3 for a base or a format word that
/// a command could not hold, for bit 17 clear and for several channels; then 6.
fn superfine_layout(base: u32, format: u32, height: u32) -> Answer<Layout> {
    if base % 2048 != 0 || !format_word_is_allowed(format) {
        return Err(3);
    }
    let code = FormatCode::of(format).ok_or(3u32)?;
    if !is_superfine(format) || code.channels != 1 {
        return Err(3);
    }
    let layout = layout_of(base, format, height).ok_or(3u32)?;
    judge(&layout)?;
    Ok(layout)
}

/// The four pairs of a superfine read, in the order of the channels. 10 where x
/// or y can't grow by 1.
fn superfine_pairs(x: u32, y: u32) -> Answer<[(u32, u32); 4]> {
    let right = x.checked_add(1).ok_or(10u32)?;
    let below = y.checked_add(1).ok_or(10u32)?;
    Ok([(right, y), (x, below), (right, below), (x, y)])
}

/// Four neighbouring elements, channel by channel: 4·s bytes.
pub fn superfine(
    base: u32,
    format: u32,
    height: u32,
    x: u32,
    y: u32,
    memory: &[u8],
    first: u32,
) -> Answer<Vec<u8>> {
    let layout = superfine_layout(base, format, height)?;
    let pairs = superfine_pairs(x, y)?;
    // All four pairs are asked for 10 before the memory is asked for 11.
    for (x, y) in pairs {
        translate(&layout, x, y)?;
    }
    let mut bytes = Vec::new();
    for (x, y) in pairs {
        bytes.extend(read(&layout, x, y, memory, first)?);
    }
    Ok(bytes)
}

#[cfg(test)]
mod tests {
    use super::*;

    /// Linear, size 4, E 8, three rows: 96 bytes from 2,048 on.
    const ROWS: Layout = Layout {
        base: 2048,
        pitch: 8,
        height: 3,
        size: 4,
        tiled: false,
    };

    /// Memory in which each byte tells its own place.
    fn counted(length: usize) -> Vec<u8> {
        (0..length).map(|place| (place % 251) as u8).collect()
    }

    #[test]
    fn a_read_gives_the_bytes_as_they_stand() {
        let memory = counted(96);
        assert_eq!(read(&ROWS, 0, 0, &memory, 2048), Ok(vec![0, 1, 2, 3]));
        assert_eq!(read(&ROWS, 1, 2, &memory, 2048), Ok(vec![68, 69, 70, 71]));
        assert_eq!(read(&ROWS, 7, 2, &memory, 2048), Ok(vec![92, 93, 94, 95]));
        // The memory may begin anywhere, also in the middle of the window.
        assert_eq!(read(&ROWS, 1, 2, &memory, 2100), Ok(vec![16, 17, 18, 19]));
    }

    #[test]
    fn a_read_of_each_size() {
        let memory = counted(8192);
        for size in [1, 2, 4, 8, 16] {
            for tiled in [false, true] {
                let layout = Layout {
                    base: 0,
                    pitch: 64,
                    height: 5,
                    size,
                    tiled,
                };
                let address = translate(&layout, 13, 4).unwrap() as usize;
                let wanted = memory[address..address + size as usize].to_vec();
                assert_eq!(read(&layout, 13, 4, &memory, 0), Ok(wanted));
            }
        }
    }

    #[test]
    fn a_write_touches_only_its_element() {
        let before = counted(96);
        for (x, y) in [(0, 0), (3, 1), (7, 2)] {
            let mut memory = before.clone();
            let data = [0xA0, 0xA1, 0xA2, 0xA3];
            assert_eq!(write(&ROWS, x, y, &mut memory, 2048, &data), Ok(()));
            let place = ((y * 8 + x) * 4) as usize;
            assert_eq!(memory[..place], before[..place]);
            assert_eq!(memory[place..place + 4], data);
            assert_eq!(memory[place + 4..], before[place + 4..]);
            assert_eq!(read(&ROWS, x, y, &memory, 2048), Ok(data.to_vec()));
        }
    }

    #[test]
    fn memory_that_does_not_hold_the_element_gets_11() {
        let memory = counted(96);
        // (1, 2) lies at 2,116 to 2,119.
        assert_eq!(read(&ROWS, 1, 2, &memory[..4], 2116).unwrap().len(), 4);
        assert_eq!(read(&ROWS, 1, 2, &memory[..4], 2115), Err(11));
        assert_eq!(read(&ROWS, 1, 2, &memory[..4], 2117), Err(11));
        assert_eq!(read(&ROWS, 1, 2, &memory[..3], 2116), Err(11));
        assert_eq!(read(&ROWS, 1, 2, &[], 2116), Err(11));
        assert_eq!(read(&ROWS, 1, 2, &[], u32::MAX), Err(11));
        assert_eq!(read(&ROWS, 1, 2, &memory, 0), Err(11));
    }

    #[test]
    fn memory_over_65536_bytes_gets_11_though_the_element_fits() {
        let mut memory = counted(65_537);
        assert!(read(&ROWS, 0, 0, &memory[..65_536], 0).is_ok());
        assert_eq!(read(&ROWS, 0, 0, &memory, 0), Err(11));
        let before = memory.clone();
        assert_eq!(write(&ROWS, 0, 0, &mut memory, 0, &[9; 4]), Err(11));
        assert_eq!(memory, before);
        assert_eq!(
            write(&ROWS, 0, 0, &mut memory[..65_536], 0, &[9; 4]),
            Ok(())
        );
    }

    #[test]
    fn memory_ending_above_the_last_address_gets_11_though_the_element_fits() {
        let last = Layout {
            base: 0xFFFF_F800,
            pitch: 8,
            height: 64,
            size: 4,
            tiled: false,
        };
        let memory = counted(2049);
        let wanted = memory[2044..2048].to_vec();
        assert_eq!(read(&last, 7, 63, &memory[..2048], 0xFFFF_F800), Ok(wanted));
        assert_eq!(read(&last, 7, 63, &memory, 0xFFFF_F800), Err(11));
        assert_eq!(read(&last, 0, 0, &memory, 0xFFFF_F800), Err(11));
        assert!(read(&last, 1, 0, &memory[..2044], 0xFFFF_F804).is_ok());
        assert_eq!(read(&last, 1, 0, &memory[..2045], 0xFFFF_F804), Err(11));
    }

    #[test]
    fn data_that_is_not_s_bytes_gets_11() {
        let before = counted(96);
        let mut memory = before.clone();
        for length in [0, 3, 5, 8] {
            let data = vec![7; length];
            assert_eq!(write(&ROWS, 1, 1, &mut memory, 2048, &data), Err(11));
            assert_eq!(memory, before);
        }
    }

    #[test]
    fn all_causes_of_11_come_after_3_6_and_10() {
        let mut memory = counted(65_537);
        let before = memory.clone();
        let malformed = Layout { size: 5, ..ROWS };
        let broken = Layout { height: 0, ..ROWS };
        for (layout, x, number) in [(malformed, 8, 3), (broken, 8, 6), (ROWS, 8, 10)] {
            assert_eq!(read(&layout, x, 0, &memory, u32::MAX), Err(number));
            let written = write(&layout, x, 0, &mut memory, u32::MAX, &[1]);
            assert_eq!(written, Err(number));
            assert_eq!(memory, before);
        }
        assert_eq!(read(&ROWS, 0, 3, &[], 0), Err(10));
    }

    // Superfine: bit 17 is 20000, FLOAT32_1 is 2000000, the pitch 8.
    const FINE: u32 = 0x0202_0008;

    #[test]
    fn a_superfine_read_asks_four_pairs_in_order() {
        let memory = counted(96);
        let fine = superfine(2048, FINE, 3, 2, 1, &memory, 2048).unwrap();
        let mut wanted = Vec::new();
        for (x, y) in [(3, 1), (2, 2), (3, 2), (2, 1)] {
            let place = ((y * 8 + x) * 4) as u8;
            wanted.extend([place, place + 1, place + 2, place + 3]);
        }
        assert_eq!(fine, wanted);
    }

    #[test]
    fn a_superfine_read_of_two_bytes_tiled() {
        let memory = counted(2048);
        // UINT16_1, tiled, pitch 32, one tile.
        let fine = superfine(0, 0x0003_0020, 32, 5, 9, &memory, 0).unwrap();
        let layout = Layout {
            base: 0,
            pitch: 32,
            height: 32,
            size: 2,
            tiled: true,
        };
        let mut wanted = Vec::new();
        for (x, y) in [(6, 9), (5, 10), (6, 10), (5, 9)] {
            wanted.extend(read(&layout, x, y, &memory, 0).unwrap());
        }
        assert_eq!(fine, wanted);
        assert_eq!(fine.len(), 8);
    }

    #[test]
    fn what_gets_3_from_a_superfine_read() {
        let fine = |base, format| superfine(base, format, 0, u32::MAX, 9, &[], 0);
        assert_eq!(fine(2048, FINE), Err(6));
        assert_eq!(fine(2047, FINE), Err(3));
        assert_eq!(fine(1, FINE), Err(3));
        // Bit 17 clear, then several channels, then codes without a format.
        assert_eq!(fine(2048, 0x0200_0008), Err(3));
        assert_eq!(fine(2048, 0x0201_0008), Err(3));
        for code in [1u32, 3, 4, 5, 6, 7] {
            assert_eq!(fine(2048, 0x0002_0008 | code << 24), Err(3), "code {code}");
        }
        assert_eq!(fine(2048, 0x0002_0010), Err(6));
        // Reserved bits.
        for bit in [0, 1, 13, 15, 18, 23, 27, 31] {
            assert_eq!(fine(2048, FINE | 1 << bit), Err(3), "bit {bit}");
        }
    }

    #[test]
    fn a_superfine_read_judges_the_height_by_6_alone() {
        let memory = counted(96);
        for height in [0, 4097, 8191, 8192, u32::MAX] {
            let answer = superfine(2048, FINE, height, 0, 0, &memory, 2048);
            assert_eq!(answer, Err(6), "height {height}");
        }
        assert_eq!(superfine(2048, FINE & !8, 3, 0, 0, &memory, 2048), Err(6));
    }

    #[test]
    fn a_superfine_read_at_the_windows_edge_gets_10() {
        let memory = counted(96);
        let fine = |height, x, y| superfine(2048, FINE, height, x, y, &memory, 2048);
        assert!(fine(3, 6, 1).is_ok());
        assert_eq!(fine(3, 7, 1), Err(10));
        assert_eq!(fine(3, 6, 2), Err(10));
        assert_eq!(fine(1, 0, 0), Err(10));
        assert_eq!(fine(3, u32::MAX, 0), Err(10));
        assert_eq!(fine(3, 0, u32::MAX), Err(10));
        assert_eq!(fine(3, u32::MAX, u32::MAX), Err(10));
    }

    #[test]
    fn a_superfine_read_asks_for_10_before_11() {
        let memory = counted(65_537);
        assert_eq!(superfine(2048, FINE, 3, 7, 0, &[], 0), Err(10));
        assert_eq!(superfine(2048, FINE, 3, 7, 0, &memory, 0), Err(10));
        assert_eq!(superfine(2048, FINE, 3, 0, 0, &memory, 0), Err(11));
        // (0, 0) to (1, 1) reach from 2,048 to 2,087; any end missing gets 11.
        assert!(superfine(2048, FINE, 3, 0, 0, &memory[..40], 2048).is_ok());
        assert_eq!(superfine(2048, FINE, 3, 0, 0, &memory[..39], 2048), Err(11));
        assert_eq!(superfine(2048, FINE, 3, 0, 0, &memory[..39], 2049), Err(11));
    }
}

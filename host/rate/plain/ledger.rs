use std::ops::RangeInclusive;

const PLACES: usize = 256;
const RIDES: RangeInclusive<u8> = 1..=40;

/// Each pass is compared with all behind it, without an end before the last, so that several are compared at a time.
#[inline(always)]
fn sound(passes: &[u32], rides_left: &[u8]) -> bool {
    let twice = |place: usize| passes[place + 1..].iter().fold(false, |found, other| found | (*other == passes[place]));
    !(0..passes.len()).any(twice) && rides_left.iter().all(|rides| rides <= RIDES.end())
}

#[inline(never)]
pub fn enter(value: &[u8], passes: &mut [u32], rides_left: &mut [u8], last_days: &mut [u16], last_scans: &mut [u32], count: &mut u32) -> u32 {
    let in_use = *count as usize;
    let sizes_right = [passes.len(), rides_left.len(), last_days.len(), last_scans.len()] == [PLACES; 4] && in_use <= PLACES;
    if !sizes_right || !sound(&passes[..in_use], &rides_left[..in_use]) {
        return 30;
    }
    let value = match value.try_into() {
        Ok(bytes) => u128::from_be_bytes(bytes),
        Err(_) => return 31,
    };
    if value == 0 {
        return 111;
    }
    let (kind, rides, pass) = ((value >> 120) as u8, (value >> 112) as u8, (value >> 80) as u32);
    let (day, scan, rest) = ((value >> 64) as u16, (value >> 32) as u32, value as u32);
    let sale = kind == 1 && RIDES.contains(&rides) && scan == 0;
    let boarding = kind == 2 && rides == 0;
    if rest != 0 || !sale && !boarding {
        return 31;
    }
    match passes[..in_use].iter().position(|known| *known == pass) {
        Some(_) if sale => 32,
        None if sale && in_use == PLACES => 33,
        None if sale => {
            (passes[in_use], rides_left[in_use], last_days[in_use], last_scans[in_use]) = (pass, rides, day, 0);
            *count += 1;
            109
        }
        None => 34,
        Some(at) => board(day, scan, last_days[at], &mut last_scans[at], &mut rides_left[at]),
    }
}

#[inline(always)]
fn board(day: u16, scan: u32, last_day: u16, last_scan: &mut u32, rides_left: &mut u8) -> u32 {
    if day > last_day {
        return 35;
    }
    if scan <= *last_scan {
        return 36;
    }
    if *rides_left == 0 {
        return 37;
    }
    *rides_left -= 1;
    *last_scan = scan;
    110
}

//! "The clock is local seconds since 2000-01-01 00:00:00".

/// "0..3,155,759,999 (end of 2099)"
pub const LAST_SECOND: u32 = 3_155_759_999;

const DAY: u32 = 86_400;

fn is_leap(year: u32) -> bool {
    year % 4 == 0 && (year % 100 != 0 || year % 400 == 0)
}

fn days_of_month(year: u32, month: u32) -> u32 {
    match month {
        4 | 6 | 9 | 11 => 30,
        2 if is_leap(year) => 29,
        2 => 28,
        _ => 31,
    }
}

/// Year, month and day (from 1) of a day counted from 2000-01-01.
pub fn date(day: u32) -> (u32, u32, u32) {
    let (mut left, mut year, mut month) = (day, 2000, 1);
    loop {
        let days = days_of_month(year, month);
        if left < days {
            return (year, month, left + 1);
        }
        left -= days;
        month += 1;
        if month == 13 {
            year += 1;
            month = 1;
        }
    }
}

/// The day, counted from 2000-01-01, of a date.
pub fn day_of(year: u32, month: u32, day: u32) -> u32 {
    let mut days = 0;
    for y in 2000..year {
        days += if is_leap(y) { 366 } else { 365 };
    }
    for m in 1..month {
        days += days_of_month(year, m);
    }
    days + day - 1
}

fn bcd(number: u32) -> u8 {
    ((number / 10) << 4 | number % 10) as u8
}

/// "nine octets YY MM DD hh mm ss S hh mm, BCD, S being 2B for an offset of
/// zero or more, 2D below zero, then the offset's size"
pub fn time_stamp(seconds: u32, offset: i32) -> [u8; 9] {
    let (year, month, day) = date(seconds / DAY);
    let of_day = seconds % DAY;
    let size = offset.unsigned_abs();
    [
        bcd(year - 2000),
        bcd(month),
        bcd(day),
        bcd(of_day / 3600),
        bcd(of_day / 60 % 60),
        bcd(of_day % 60),
        if offset >= 0 { 0x2B } else { 0x2D },
        bcd(size / 60),
        bcd(size % 60),
    ]
}

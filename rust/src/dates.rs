//! Dates of the common era, in UTC alone: '2026-05-03' and '2026-05-03T09:30:00Z', as seconds since 1970.

const DAY: i64 = 86_400;

/// Days since 1970 of a day of the Gregorian calendar, and back; years begin in March here, so that the leap day is a year's last.
fn days(year: i64, month: i64, day: i64) -> i64 {
    let year = if month <= 2 { year - 1 } else { year };
    let of_year = (153 * ((month + 9) % 12) + 2) / 5 + day - 1;
    let (era, year) = (year.div_euclid(400), year.rem_euclid(400));
    era * 146_097 + year * 365 + year / 4 - year / 100 + of_year - 719_468
}

fn civil(days: i64) -> (i64, i64, i64) {
    let days = days + 719_468;
    let (era, day) = (days.div_euclid(146_097), days.rem_euclid(146_097));
    let year = (day - day / 1_460 + day / 36_524 - day / 146_096) / 365;
    let of_year = day - (365 * year + year / 4 - year / 100);
    let month = (5 * of_year + 2) / 153;
    let day = of_year - (153 * month + 2) / 5 + 1;
    let month = if month < 10 { month + 3 } else { month - 9 };
    (era * 400 + year + i64::from(month <= 2), month, day)
}

pub fn now() -> i64 {
    let since = std::time::SystemTime::now().duration_since(std::time::UNIX_EPOCH);
    since.map_or(0, |since| since.as_secs() as i64)
}

/// '2026-05-03T09:30:00Z'.
pub fn text(time: i64) -> String {
    let (year, month, day) = civil(time.div_euclid(DAY));
    let second = time.rem_euclid(DAY);
    format!(
        "{year:04}-{month:02}-{day:02}T{:02}:{:02}:{:02}Z",
        second / 3_600,
        second / 60 % 60,
        second % 60
    )
}

/// '2026-05-03 09:30', for people.
pub fn short(time: i64) -> String {
    text(time)[..16].replace('T', " ")
}

/// The first and the last second that a text names: of a whole day, or of one second.
pub fn parse(text: &str) -> Option<(i64, i64)> {
    let (date, clock) = match text.split_once(['T', ' ']) {
        Some((date, clock)) => (date, Some(clock.strip_suffix('Z').unwrap_or(clock))),
        None => (text, None),
    };
    let [year, month, day] = numbers(date, '-', [4, 2, 2])?;
    let midnight = days(year, month, day);
    if civil(midnight) != (year, month, day) {
        return None;
    }
    let midnight = midnight * DAY;
    let Some(clock) = clock else {
        return Some((midnight, midnight + DAY - 1));
    };
    let seconds = if clock.len() == 5 { ":00" } else { "" };
    let [hour, minute, second] = numbers(&format!("{clock}{seconds}"), ':', [2, 2, 2])?;
    if hour > 23 || minute > 59 || second > 59 {
        return None;
    }
    let time = midnight + hour * 3_600 + minute * 60 + second;
    Some((time, time))
}

/// Three numbers of so many digits.
fn numbers(text: &str, between: char, digits: [usize; 3]) -> Option<[i64; 3]> {
    let mut parts = text.split(between);
    let mut numbers = [0; 3];
    for (number, digits) in numbers.iter_mut().zip(digits) {
        let part = parts.next().filter(|part| part.len() == digits)?;
        if !part.bytes().all(|b| b.is_ascii_digit()) {
            return None;
        }
        *number = part.parse().ok()?;
    }
    parts.next().is_none().then_some(numbers)
}

#[cfg(test)]
mod tests {
    use super::*;

    #[test]
    fn dates_come_back() {
        for time in [
            0,
            951_782_400,
            951_868_799,
            1_709_164_800,
            4_102_444_799,
            253_402_300_799,
        ] {
            assert_eq!(parse(&text(time)), Some((time, time)));
        }
        assert_eq!(text(951_782_400), "2000-02-29T00:00:00Z");
        assert_eq!(parse("2026-05-03"), Some((1_777_766_400, 1_777_852_799)));
        assert_eq!(
            parse("2026-05-03 09:30"),
            Some((1_777_800_600, 1_777_800_600))
        );
        for wrong in [
            "",
            "2026-5-3",
            "2026-02-29",
            "2026-13-01",
            "2026-05-03T25:00:00Z",
            "today",
            "2026-05-03T09",
            "+026-05-03",
        ] {
            assert_eq!(parse(wrong), None, "{wrong}");
        }
    }
}

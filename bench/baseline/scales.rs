//! The three scales that prices are counted in.
use std::fmt;

/// A price: a value of a scale.
pub trait Scale: Copy + PartialOrd + fmt::Display {
    /// The price that adds nothing.
    const FREE: Self;

    /// The price that no other is above.
    const BARRED: Self;

    /// The price of both together.
    fn join(self, other: Self) -> Self;

    /// The price of work that takes so many tenths of a second at a blade heat.
    fn price(time: u32, grade: u8) -> Self;

    fn is_barred(self) -> bool {
        self >= Self::BARRED
    }
}

/// Tenths of a second; the largest number is barred.
#[derive(Clone, Copy, PartialEq, Eq, PartialOrd, Ord, Debug)]
pub struct Time(pub u32);

impl Scale for Time {
    const FREE: Time = Time(0);
    const BARRED: Time = Time(u32::MAX);

    #[inline]
    fn join(self, other: Time) -> Time {
        Time(self.0.saturating_add(other.0))
    }

    #[inline]
    fn price(time: u32, _grade: u8) -> Time {
        Time(time)
    }
}

/// A blade heat; the largest number is barred.
#[derive(Clone, Copy, PartialEq, Eq, PartialOrd, Ord, Debug)]
pub struct Grade(pub u8);

impl Scale for Grade {
    const FREE: Grade = Grade(0);
    const BARRED: Grade = Grade(u8::MAX);

    #[inline]
    fn join(self, other: Grade) -> Grade {
        Grade(self.0.max(other.0))
    }

    #[inline]
    fn price(_time: u32, grade: u8) -> Grade {
        Grade(grade)
    }
}

/// A time and a grade, compared by the time and at equal time by the grade. Both are barred or neither is.
#[derive(Clone, Copy, PartialEq, Eq, PartialOrd, Ord, Debug)]
pub struct TimeGrade {
    time: u32,
    grade: u8,
}

impl TimeGrade {
    /// The pair, or the one barred pair where a part is barred.
    #[inline]
    pub fn new(time: u32, grade: u8) -> TimeGrade {
        if time == u32::MAX || grade == u8::MAX { TimeGrade::BARRED } else { TimeGrade { time, grade } }
    }

    pub fn time(self) -> u32 {
        self.time
    }

    pub fn grade(self) -> u8 {
        self.grade
    }
}

impl Scale for TimeGrade {
    const FREE: TimeGrade = TimeGrade { time: 0, grade: 0 };
    const BARRED: TimeGrade = TimeGrade { time: u32::MAX, grade: u8::MAX };

    #[inline]
    fn join(self, other: TimeGrade) -> TimeGrade {
        let time = self.time.saturating_add(other.time);
        let grade = self.grade.max(other.grade);
        TimeGrade { time, grade: if time < u32::MAX { grade } else { u8::MAX } }
    }

    #[inline]
    fn price(time: u32, grade: u8) -> TimeGrade {
        TimeGrade::new(time, grade)
    }
}

impl fmt::Display for Time {
    fn fmt(&self, f: &mut fmt::Formatter) -> fmt::Result {
        self.0.fmt(f)
    }
}

impl fmt::Display for Grade {
    fn fmt(&self, f: &mut fmt::Formatter) -> fmt::Result {
        self.0.fmt(f)
    }
}

impl fmt::Display for TimeGrade {
    fn fmt(&self, f: &mut fmt::Formatter) -> fmt::Result {
        write!(f, "{} {}", self.time, self.grade)
    }
}

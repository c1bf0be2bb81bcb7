//! Stand-in for `chrono`: a clock that stands still. No compared call reads it.

pub mod prelude {
    pub struct Local;

    pub struct Now;

    pub struct Weekday;

    impl Local {
        pub fn now() -> Now {
            Now
        }
    }

    impl Now {
        pub fn year(&self) -> i32 {
            1881
        }

        pub fn month0(&self) -> u32 {
            0
        }

        pub fn day0(&self) -> u32 {
            0
        }

        pub fn weekday(&self) -> Weekday {
            Weekday
        }

        pub fn hour(&self) -> u32 {
            0
        }

        pub fn minute(&self) -> u32 {
            0
        }

        pub fn second(&self) -> u32 {
            0
        }

        pub fn nanosecond(&self) -> u32 {
            0
        }
    }

    impl Weekday {
        pub fn num_days_from_sunday(&self) -> u32 {
            0
        }
    }
}

//! Settings and units (docs/RULES.md, sections 1 and 2).

/// How many limits there are, and how many words come before the capacities: the limits and the early times.
pub const LIMITS: usize = 9;
pub const HEAD: usize = LIMITS + 1;

/// The greatest value of each limit, in the order of rule 1.1. The least is 1.
pub const GREATEST: [u32; LIMITS] = [400, 16, 96, 512, 128, 64, 16, 512, 128];

/// The greatest seat capacity (rule 1.2). The least is 1.
pub const GREATEST_CAPACITY: u32 = 1000;

#[derive(Clone, Copy, Debug, PartialEq, Eq, PartialOrd, Ord)]
pub struct Date(pub u32);
#[derive(Clone, Copy, Debug, PartialEq, Eq, PartialOrd, Ord)]
pub struct Session(pub u32);
#[derive(Clone, Copy, Debug, PartialEq, Eq, PartialOrd, Ord)]
pub struct Time(pub u32);

/// The settings (rule 1.3). Sessions and times are so many per date; of the times of a date the early ones, its
/// first, belong to the date before (rule 1.7).
#[derive(Clone, Debug, PartialEq, Eq)]
pub struct Settings {
    pub dates: u32,
    pub sessions_per_date: u32,
    pub times_per_date: u32,
    pub visitors: u32,
    pub meetings: u32,
    pub conference_rooms: u32,
    pub dining_rooms: u32,
    pub hotel_rooms: u32,
    pub transports: u32,
    pub early: u32,
    /// One for each dining room.
    pub capacities: Vec<u32>,
}

fn in_range(word: u32, greatest: u32) -> bool {
    1 <= word && word <= greatest
}

impl Settings {
    /// Rule 5.24: the settings of these words, or None where they are not good ones.
    pub fn from_words(words: &[u32]) -> Option<Settings> {
        let head = words.get(..HEAD)?;
        let (limits, early) = (&head[..LIMITS], head[LIMITS]);
        let capacities = &words[HEAD..];
        let limits_kept = limits.iter().zip(GREATEST).all(|(word, greatest)| in_range(*word, greatest));
        let capacities_kept = capacities.iter().all(|word| in_range(*word, GREATEST_CAPACITY));
        let early_kept = early < limits[2];
        let length_kept = capacities.len() as u64 == u64::from(limits[6]);
        if !(limits_kept && early_kept && capacities_kept && length_kept) {
            return None;
        }
        Some(Settings {
            dates: limits[0],
            sessions_per_date: limits[1],
            times_per_date: limits[2],
            visitors: limits[3],
            meetings: limits[4],
            conference_rooms: limits[5],
            dining_rooms: limits[6],
            hotel_rooms: limits[7],
            transports: limits[8],
            early,
            capacities: capacities.to_vec(),
        })
    }

    /// The settings at the head of a book that may hold anything.
    pub fn of_book(book: &[u32]) -> Option<Settings> {
        let dining_rooms = book.get(..HEAD)?[6];
        let length = HEAD as u64 + u64::from(dining_rooms);
        if length > book.len() as u64 {
            return None;
        }
        Settings::from_words(&book[..length as usize])
    }

    pub fn limits(&self) -> [u32; LIMITS] {
        [
            self.dates,
            self.sessions_per_date,
            self.times_per_date,
            self.visitors,
            self.meetings,
            self.conference_rooms,
            self.dining_rooms,
            self.hotel_rooms,
            self.transports,
        ]
    }

    /// How many words the settings are: 10 + G.
    pub fn word_count(&self) -> usize {
        HEAD + self.capacities.len()
    }

    /// The 10 + G numbers.
    pub fn words(&self) -> Vec<u32> {
        let mut words = self.limits().to_vec();
        words.push(self.early);
        words.extend(&self.capacities);
        words
    }

    pub fn capacity(&self, dining_room: u32) -> u32 {
        self.capacities[dining_room as usize]
    }

    /// How many sessions the site has (rule 2.1).
    pub fn sessions(&self) -> u32 {
        self.dates * self.sessions_per_date
    }

    /// How many times the site has (rule 2.1).
    pub fn times(&self) -> u32 {
        self.dates * self.times_per_date
    }

    /// Rule 2.2.
    pub fn date_of_session(&self, session: Session) -> Date {
        Date(session.0 / self.sessions_per_date)
    }

    /// Rule 2.2: times are moved back by the early ones; those that would come before all others are of date 0.
    pub fn date_of_time(&self, time: Time) -> Date {
        match time.0.checked_sub(self.early) {
            Some(moved) => Date(moved / self.times_per_date),
            None => Date(0),
        }
    }

    /// The sessions whose date is this one.
    pub fn sessions_of(&self, date: Date) -> impl Iterator<Item = Session> {
        let first = date.0 * self.sessions_per_date;
        (first..first + self.sessions_per_date).map(Session)
    }

    /// The times whose date is this one. The first date begins with its own early times, which have no date before
    /// them, and the last ends with the site.
    pub fn times_of(&self, date: Date) -> impl Iterator<Item = Time> {
        let first = if date.0 == 0 { 0 } else { date.0 * self.times_per_date + self.early };
        let behind = (date.0 + 1) * self.times_per_date + self.early;
        (first..behind.min(self.times())).map(Time)
    }
}

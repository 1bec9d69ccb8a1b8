//! A member: entries that ascend by name, and a gap between each two neighbours.
//!
//! Names, versions, values and gaps stand in arrays of their own. Slot 0 is LOW,
//! the entries follow, and every later slot is HIGH, so that a search needs no
//! length and both ends are entries like any other.

/// LOW lies below all names and HIGH above.
pub const LOW: i32 = -1;
pub const HIGH: i32 = LARGEST_NAME as i32 + 1;
pub const LARGEST_NAME: u32 = 1_048_575;
pub const LARGEST_VALUE: u32 = 65_535;
pub const LARGEST_VERSION: u32 = 16_777_215;
pub const PLACES: usize = 32;
pub const SLOTS: usize = PLACES + 2;

#[derive(Clone, Copy, PartialEq, Eq, Debug)]
pub struct Entry {
    pub name: i32,
    pub version: u32,
    pub value: u16,
}

/// What a member says about a name.
#[derive(Clone, Copy, PartialEq, Eq, Debug)]
pub enum Reading {
    Entry { version: u32, value: u16 },
    Gap { version: u32 },
}

impl Reading {
    pub fn version(self) -> u32 {
        match self {
            Reading::Entry { version, .. } | Reading::Gap { version } => version,
        }
    }
}

/// A gap's version and the end of it that lies away from the name asked about.
#[derive(Clone, Copy, PartialEq, Eq, Debug)]
pub struct Gap {
    pub version: u32,
    pub end: i32,
}

#[derive(Clone, PartialEq, Eq, Debug)]
pub struct Member {
    /// Entries held, LOW and HIGH not counted.
    pub count: usize,
    pub names: [i32; SLOTS],
    pub versions: [u32; SLOTS],
    pub values: [u16; SLOTS],
    /// `gaps[i]` lies between slots `i` and `i + 1`; count + 1 of them are used.
    pub gaps: [u32; SLOTS],
}

impl Member {
    pub const FRESH: Member = {
        let mut names = [HIGH; SLOTS];
        names[0] = LOW;
        Member {
            count: 0,
            names,
            versions: [0; SLOTS],
            values: [0; SLOTS],
            gaps: [0; SLOTS],
        }
    };

    /// The first slot whose name is not below `name`.
    #[inline]
    pub fn slot(&self, name: i32) -> usize {
        let entries: &[i32; PLACES] = self.names[1..=PLACES].try_into().unwrap();
        let mut below = 0;
        // A search by halves without a jump, since HIGH fills every place not used.
        for half in [16, 8, 4, 2, 1] {
            below += if entries[below + half - 1] < name {
                half
            } else {
                0
            };
        }
        below += usize::from(entries[below] < name);
        usize::from(name > LOW) + below
    }

    #[inline]
    pub fn entry(&self, slot: usize) -> Entry {
        Entry {
            name: self.names[slot],
            version: self.versions[slot],
            value: self.values[slot],
        }
    }

    /// The reading at `name`, whose slot is given.
    #[inline]
    pub fn reading(&self, slot: usize, name: i32) -> Reading {
        if self.names[slot] == name {
            Reading::Entry {
                version: self.versions[slot],
                value: self.values[slot],
            }
        } else {
            Reading::Gap {
                version: self.gaps[slot - 1],
            }
        }
    }

    /// The gap next below the name of this slot, or around it where it is no entry.
    #[inline]
    pub fn gap_below(&self, slot: usize) -> Gap {
        Gap {
            version: self.gaps[slot - 1],
            end: self.names[slot - 1],
        }
    }

    /// The gap next above `name`, or around it where it is no entry.
    #[inline]
    pub fn gap_above(&self, slot: usize, name: i32) -> Gap {
        let end = slot + usize::from(self.names[slot] == name);
        Gap {
            version: self.gaps[end - 1],
            end: self.names[end],
        }
    }

    /// The greatest entry from `k` up to but not the slot's name that is `k` itself
    /// or has a version above `v`.
    #[inline]
    pub fn offer_below(&self, slot: usize, k: i32, v: u32) -> Option<Entry> {
        let mut at = slot - 1;
        while self.names[at] > k && self.versions[at] <= v {
            at -= 1;
        }
        (self.names[at] >= k).then(|| self.entry(at))
    }

    /// The mirror image: the least entry above `name` and up to `k`.
    #[inline]
    pub fn offer_above(&self, slot: usize, name: i32, k: i32, v: u32) -> Option<Entry> {
        let mut at = slot + usize::from(self.names[slot] == name);
        while self.names[at] < k && self.versions[at] <= v {
            at += 1;
        }
        (self.names[at] <= k).then(|| self.entry(at))
    }

    /// Whether writing `name` leaves at most 32 entries.
    #[inline]
    pub fn fits_write(&self, name: i32) -> bool {
        self.count < PLACES || self.names[self.slot(name)] == name
    }

    /// Whether coalescing `p`..`s` leaves at most 32 entries.
    #[inline]
    pub fn fits_coalesce(&self, p: i32, s: i32) -> bool {
        // Both ends added and nothing dropped is the worst there is.
        self.count + 2 <= PLACES || {
            let above = self.slot(s);
            let tail = above + usize::from(self.names[above] == s);
            self.slot(p) + 2 + (self.used() - tail) <= SLOTS
        }
    }

    /// Slots in use, LOW and HIGH counted.
    #[inline]
    fn used(&self) -> usize {
        self.count + 2
    }

    #[inline]
    fn set(&mut self, slot: usize, entry: Entry) {
        self.names[slot] = entry.name;
        self.versions[slot] = entry.version;
        self.values[slot] = entry.value;
    }

    /// Moves the slots in use from `from` on so that they start at `to`.
    #[inline]
    fn shift(&mut self, from: usize, to: usize) {
        let used = self.used();
        self.names.copy_within(from..used, to);
        self.versions.copy_within(from..used, to);
        self.values.copy_within(from..used, to);
        self.gaps.copy_within(from..used, to);
    }

    /// Writes an entry. One that is added splits its gap; both halves keep the version.
    #[inline]
    pub fn write(&mut self, entry: Entry) {
        let slot = self.slot(entry.name);
        if self.names[slot] != entry.name {
            self.shift(slot, slot + 1);
            self.gaps[slot] = self.gaps[slot - 1];
            self.count += 1;
        }
        self.set(slot, entry);
    }

    /// Writes `p` and `s`, drops what lies strictly between and leaves one gap there.
    #[inline]
    pub fn coalesce(&mut self, p: Entry, s: Entry, version: u32) {
        let below = self.slot(p.name);
        let above = self.slot(s.name);
        // Where s is held, its own gap above; else that of the gap which it splits.
        let held = self.names[above] == s.name;
        let gap_above_s = self.gaps[if held { above } else { above - 1 }];
        let tail = above + usize::from(held);
        let before = self.used();
        let after = below + 2 + (before - tail);
        if tail != below + 2 {
            self.shift(tail, below + 2);
        }
        self.set(below, p);
        self.gaps[below] = version;
        self.set(below + 1, s);
        self.gaps[below + 1] = gap_above_s;
        for freed in after..before {
            self.set(
                freed,
                Entry {
                    name: HIGH,
                    version: 0,
                    value: 0,
                },
            );
            self.gaps[freed] = 0;
        }
        self.count = after - 2;
    }
}

//! The same questions answered by a Rust that was written for speed and knows nothing of the proved code. Each call reads the
//! lists against the site and places all blocks afresh; nothing is kept between calls, and nothing is on the heap.

mod sheet;

const NONE: u8 = 0xff;

#[repr(C)]
pub struct VaultSite {
    racks: u32,
    each: u32,
    targets: u32,
}

#[repr(C)]
pub struct VaultCode {
    n: u32,
    k: u32,
    c: u32,
}

/// What a search asks of a site; a node is asked about only where it is below `nodes`.
trait Site {
    fn nodes(&self) -> u32;
    fn rack(&self, v: u32) -> u32;
    fn keeps(&self, v: u32) -> bool;
}

/// A regular site of racks with `each` nodes, of which those in the racks of a word may keep blocks.
struct Regular {
    nodes: u32,
    reciprocal: u32,
    targets: u32,
}

impl Regular {
    fn new(&VaultSite { racks, each, targets }: &VaultSite) -> Option<Regular> {
        if !(1..=32).contains(&racks) || !(1..=256).contains(&each) || racks * each > 256 {
            return None;
        }
        // For v below 256 and `each` up to 256, v / each is v * ceil(2^16 / each) / 2^16.
        Some(Regular { nodes: racks * each, reciprocal: 65536_u32.div_ceil(each), targets })
    }
}

impl Site for Regular {
    fn nodes(&self) -> u32 {
        self.nodes
    }

    fn rack(&self, v: u32) -> u32 {
        (v * self.reciprocal) >> 16 & 31
    }

    fn keeps(&self, v: u32) -> bool {
        self.targets >> self.rack(v) & 1 == 1
    }
}

#[derive(Clone, Copy)]
struct Seats {
    node: [u8; 8],
    rack: [u8; 8],
    racks: u32,
    len: u8,
}

const NO_SEATS: Seats = Seats { node: [0; 8], rack: [0; 8], racks: 0, len: 0 };

/// Who sits where: by node, by rack, and by block.
struct Search {
    seats: [Seats; 17],
    at: [u8; 17],
    holder: [u8; 256],
    sitting: [u32; 32],
    full: u32,
    c: u32,
}

impl Search {
    fn new(c: u32) -> Search {
        Search {
            seats: [NO_SEATS; 17],
            at: [NONE; 17],
            holder: [NONE; 256],
            sitting: [0; 32],
            full: if c == 0 { u32::MAX } else { 0 },
            c,
        }
    }

    #[inline]
    fn read(&mut self, site: &impl Site, x: usize, nodes: &[u16]) {
        let seats = &mut self.seats[x];
        let (mut len, mut racks) = (0, 0);
        for &v in &nodes[..nodes.len().min(8)] {
            let v = v as u32;
            if v < site.nodes() && site.keeps(v) {
                let rack = site.rack(v);
                seats.node[len & 7] = v as u8;
                seats.rack[len & 7] = rack as u8;
                racks |= 1 << rack;
                len += 1;
            }
        }
        seats.len = len as u8;
        seats.racks = racks;
    }

    #[inline]
    fn sit(&mut self, x: usize, j: usize) {
        let v = self.seats[x].node[j & 7];
        let rack = (self.seats[x].rack[j & 7] & 31) as usize;
        self.at[x] = j as u8;
        self.holder[v as usize] = x as u8;
        let sitting = self.sitting[rack] | 1 << x;
        self.sitting[rack] = sitting;
        if sitting.count_ones() >= self.c {
            self.full |= 1 << rack;
        }
    }

    #[inline]
    fn rise(&mut self, x: usize) -> usize {
        let j = (self.at[x] & 7) as usize;
        let v = self.seats[x].node[j];
        let rack = (self.seats[x].rack[j] & 31) as usize;
        self.holder[v as usize] = NONE;
        self.sitting[rack] &= !(1 << x);
        self.full &= !(1 << rack);
        j
    }

    /// The first seat of x that is open as things are.
    #[inline]
    fn open(&self, x: usize) -> Option<usize> {
        let seats = &self.seats[x];
        if seats.racks & !self.full == 0 {
            return None;
        }
        (0..(seats.len as usize).min(8)).find(|&j| {
            self.full >> (seats.rack[j] & 31) & 1 == 0 && self.holder[seats.node[j] as usize] == NONE
        })
    }

    /// Those of whom any could make room for x at its seat j by leaving.
    #[inline]
    fn blockers(&self, x: usize, j: usize) -> u32 {
        let seats = &self.seats[x];
        match self.holder[seats.node[j & 7] as usize] {
            NONE => self.sitting[(seats.rack[j & 7] & 31) as usize],
            y => 1 << (y & 31),
        }
    }

    /// Seats x, who has no seat; moves those that were not seen.
    fn place(&mut self, x: usize, seen: &mut u32) -> bool {
        if let Some(j) = self.open(x) {
            self.sit(x, j);
            return true;
        }
        let len = (self.seats[x].len as usize).min(8);
        (0..len).any(|j| self.displace(x, j, seen))
    }

    /// Seats x at its seat j, for whom somebody else moves.
    fn displace(&mut self, x: usize, j: usize, seen: &mut u32) -> bool {
        let mut left = self.blockers(x, j) & !*seen;
        while left != 0 {
            let y = (left.trailing_zeros() as usize).min(16);
            *seen |= 1 << y;
            let old = self.rise(y);
            self.sit(x, j);
            if self.place(y, seen) {
                return true;
            }
            self.rise(x);
            self.sit(y, old);
            left &= !*seen;
        }
        false
    }

    /// Seats the first n; or else the least tight set of the first that cannot sit.
    fn place_all(&mut self, n: usize) -> u32 {
        for x in 0..n {
            let mut seen = 1 << x;
            if !self.place(x, &mut seen) {
                return seen;
            }
        }
        0
    }

    /// Moves each in turn to its earliest seat that leaves all the later ones seated.
    fn settle(&mut self, n: usize) {
        for x in 0..n {
            let now = (self.at[x] & 7) as usize;
            if now == 0 {
                continue;
            }
            self.rise(x);
            let fixed = (2 << x) - 1;
            let better = (0..now).any(|j| {
                let seats = &self.seats[x];
                let open = self.full >> (seats.rack[j] & 31) & 1 == 0 && self.holder[seats.node[j] as usize] == NONE;
                if open {
                    self.sit(x, j);
                    return true;
                }
                self.displace(x, j, &mut fixed.clone())
            });
            if !better {
                self.sit(x, now);
            }
        }
    }
}

/// Eight entries to a block, of which its length says how many count.
fn read_all(search: &mut Search, site: &impl Site, nodes: &[u16], lens: &[u8]) -> Result<(), u32> {
    if lens.len() > 16 || nodes.len() != 8 * lens.len() {
        return Err(30);
    }
    for (x, (row, &n)) in nodes.chunks_exact(8).zip(lens).enumerate() {
        if !(2..=8).contains(&n) {
            return Err(3);
        }
        search.read(site, x, &row[..n as usize]);
    }
    Ok(())
}

fn admit(site: &VaultSite, c: u32, nodes: &[u16], lens: &[u8], offered: &[u16], set: &mut u32) -> Result<(), u32> {
    let site = Regular::new(site).ok_or(9_u32)?;
    let mut search = Search::new(c);
    read_all(&mut search, &site, nodes, lens)?;
    if !(2..=8).contains(&offered.len()) {
        return Err(3);
    }
    search.read(&site, lens.len(), offered);
    match search.place_all(lens.len() + 1) {
        0 => Ok(()),
        word => {
            *set = word;
            Err(24)
        }
    }
}

/// The nodes of a plan as they are found.
struct Found {
    nodes: [u16; 24],
    len: usize,
}

impl Found {
    fn put(&mut self, v: u32) {
        self.nodes[self.len] = v as u16;
        self.len += 1;
    }
}

/// Adds up to `left` parity nodes, visited from `start` on.
fn add_parity(search: &mut Search, site: &impl Site, start: u32, mut left: u32, found: &mut Found) {
    for v in (start..site.nodes()).chain(0..start.min(site.nodes())) {
        if left == 0 {
            return;
        }
        let rack = site.rack(v) as usize;
        let holder = &mut search.holder[v as usize & 255];
        if *holder == NONE && search.full >> rack & 1 == 0 && site.keeps(v) {
            *holder = 0;
            // Parity nodes have bits of their own, past those of the blocks.
            search.sitting[rack] |= 1 << (31 - left);
            if search.sitting[rack].count_ones() >= search.c {
                search.full |= 1 << rack;
            }
            found.put(v);
            left -= 1;
        }
    }
}

fn plan(site: &VaultSite, code: &VaultCode, nodes: &[u16], lens: &[u8], start: u16) -> Result<Found, u32> {
    let site = Regular::new(site).ok_or(9_u32)?;
    let &VaultCode { n, k, c } = code;
    if !(1..=16).contains(&k) || n <= k || n > 24 || c < 1 || c > n - k {
        return Err(1);
    }
    let mut search = Search::new(c);
    read_all(&mut search, &site, nodes, lens)?;
    if lens.len() != k as usize {
        return Err(25);
    }
    if search.place_all(lens.len()) != 0 {
        return Err(31);
    }
    search.settle(lens.len());
    let mut found = Found { nodes: [0; 24], len: 0 };
    for x in 0..lens.len() {
        found.put(search.seats[x].node[(search.at[x] & 7) as usize] as u32);
    }
    add_parity(&mut search, &site, start as u32, n - k, &mut found);
    if found.len == n as usize { Ok(found) } else { Err(31) }
}

/// # Safety
/// Each pointer points to as many entries as the length after it says.
#[unsafe(no_mangle)]
pub unsafe extern "C" fn peer_admit(
    site: &VaultSite,
    c: u32,
    nodes: *const u16,
    nodes_len: usize,
    lens: *const u8,
    lens_len: usize,
    offered: *const u16,
    offered_len: usize,
    set: &mut u32,
) -> u32 {
    let (nodes, lens, offered) = unsafe {
        (
            std::slice::from_raw_parts(nodes, nodes_len),
            std::slice::from_raw_parts(lens, lens_len),
            std::slice::from_raw_parts(offered, offered_len),
        )
    };
    admit(site, c, nodes, lens, offered, set).err().unwrap_or(0)
}

/// # Safety
/// Each pointer points to as many entries as the length after it says.
#[unsafe(no_mangle)]
pub unsafe extern "C" fn peer_run_sheet(sheet: *const u8, sheet_len: usize, out: *mut u8, out_len: usize) -> usize {
    let (sheet, out) =
        unsafe { (std::slice::from_raw_parts(sheet, sheet_len), std::slice::from_raw_parts_mut(out, out_len)) };
    sheet::run(sheet, out)
}

/// # Safety
/// Each pointer points to as many entries as the length after it says.
#[unsafe(no_mangle)]
pub unsafe extern "C" fn peer_plan(
    site: &VaultSite,
    code: &VaultCode,
    nodes: *const u16,
    nodes_len: usize,
    lens: *const u8,
    lens_len: usize,
    start: u16,
    out: *mut u16,
    out_len: usize,
    len: &mut usize,
) -> u32 {
    let (nodes, lens, out) = unsafe {
        (
            std::slice::from_raw_parts(nodes, nodes_len),
            std::slice::from_raw_parts(lens, lens_len),
            std::slice::from_raw_parts_mut(out, out_len),
        )
    };
    match plan(site, code, nodes, lens, start) {
        Ok(found) => {
            let count = found.len.min(out.len());
            out[..count].copy_from_slice(&found.nodes[..count]);
            *len = found.len;
            0
        }
        Err(number) => number,
    }
}

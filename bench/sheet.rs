//! Whole sheets: reading, the store, and the answer lines. Written from docs/SHEET.md and docs/RULES.md.

use crate::{Found, Regular, Search, Site, VaultSite, add_parity};

const LIMIT: u64 = u32::MAX as u64;

/// A number, a line and a column.
type Fault = (u32, usize, usize);

/// Text from the front of a buffer; what has no room is counted all the same.
struct Out<'a> {
    buffer: &'a mut [u8],
    len: usize,
}

impl Out<'_> {
    #[inline]
    fn bytes(&mut self, text: &[u8]) {
        if let Some(room) = self.buffer.get_mut(self.len..self.len + text.len()) {
            room.copy_from_slice(text);
        } else if let Some(room) = self.buffer.get_mut(self.len..) {
            let n = room.len();
            room.copy_from_slice(&text[..n]);
        }
        self.len += text.len();
    }

    #[inline]
    fn number(&mut self, mut n: u32) {
        let mut digits = [0; 10];
        let mut at = 10;
        loop {
            at -= 1;
            digits[at] = b'0' + (n % 10) as u8;
            n /= 10;
            if n == 0 {
                break;
            }
        }
        self.bytes(&digits[at..]);
    }

    fn fault(&mut self, (number, line, column): Fault) {
        self.number(number);
        self.bytes(b",");
        self.number(line as u32);
        self.bytes(b",");
        self.number(column as u32);
        self.bytes(b"\n");
    }

    fn head(&mut self, status: &[u8], first: u32) {
        self.bytes(status);
        self.bytes(b",");
        self.number(first);
        self.bytes(b",");
    }
}

/// The lines of a sheet with their numbers.
struct Lines<'a> {
    left: &'a [u8],
    number: usize,
}

impl<'a> Lines<'a> {
    fn next(&mut self) -> Option<&'a [u8]> {
        if self.left.is_empty() {
            return None;
        }
        let end = self.left.iter().position(|&b| b == b'\n');
        let line = &self.left[..end.unwrap_or(self.left.len())];
        self.left = end.map_or(&[], |e| &self.left[e + 1..]);
        self.number += 1;
        Some(line)
    }
}

fn number(text: &[u8], limit: u64) -> Option<u32> {
    if text.is_empty() || text.len() > 10 || (text[0] == b'0' && text.len() > 1) {
        return None;
    }
    let mut n = 0_u64;
    for &b in text {
        if !b.is_ascii_digit() {
            return None;
        }
        n = n * 10 + (b - b'0') as u64;
    }
    (n <= limit).then_some(n as u32)
}

/// The fields of a line, with the columns where they begin; fields past the fourth only say that there are more.
struct Fields<'a> {
    at: [(&'a [u8], usize); 5],
    len: usize,
}

fn fields(line: &[u8]) -> Fields<'_> {
    let mut found = Fields { at: [(&[], 0); 5], len: 0 };
    if line.is_empty() {
        return found;
    }
    let mut column = 1;
    for field in line.split(|&b| b == b',').take(5) {
        found.at[found.len] = (field, column);
        found.len += 1;
        column += field.len() + 1;
    }
    found
}

/// For each column the index of its name, where the line has each name once.
fn order<const N: usize>(line: &[u8], names: [&[u8]; N]) -> Option<[usize; N]> {
    let found = fields(line);
    if found.len != N {
        return None;
    }
    let mut order = [N; N];
    for i in 0..N {
        let name = names.iter().position(|&n| n == found.at[i].0)?;
        if order.contains(&name) {
            return None;
        }
        order[i] = name;
    }
    Some(order)
}

/// Has each field of a line judged, from the left, and tells the first fault: `judge` gets a name and a text.
fn judged<'a, const N: usize>(
    line: &'a [u8],
    at: usize,
    order: &[usize; N],
    mut judge: impl FnMut(usize, &'a [u8]) -> Option<u32>,
) -> Result<(), Fault> {
    let found = fields(line);
    if found.len == 0 {
        return Err((12, at, 1));
    }
    for i in 0..N {
        if i >= found.len {
            return Err((12, at, line.len() + 1));
        }
        let (text, column) = found.at[i];
        if let Some(number) = judge(order[i], text) {
            return Err((number, at, column));
        }
    }
    if found.len > N { Err((12, at, found.at[N].1)) } else { Ok(()) }
}

fn numbers<const N: usize>(line: &[u8], at: usize, order: &[usize; N]) -> Result<[u32; N], Fault> {
    let mut values = [0; N];
    judged(line, at, order, |name, text| match number(text, LIMIT) {
        Some(n) => {
            values[name] = n;
            None
        }
        None => Some(11),
    })?;
    Ok(values)
}

/// The rack of each node, and whether it may keep a block.
struct Table {
    rack: [u8; 256],
    keep: [bool; 256],
    nodes: u32,
}

impl Site for Table {
    fn nodes(&self) -> u32 {
        self.nodes
    }

    fn rack(&self, v: u32) -> u32 {
        (self.rack[v as usize & 255] & 31) as u32
    }

    fn keeps(&self, v: u32) -> bool {
        self.keep[v as usize & 255]
    }
}

struct Head {
    n: u32,
    k: u32,
    c: u32,
    site: Table,
    outside: bool,
}

/// The value line that stands alone below a names line, and the end of its part.
fn one_value_line<'a>(lines: &mut Lines<'a>) -> Result<&'a [u8], Fault> {
    let at = lines.number + 1;
    match lines.next() {
        Some(line) if !line.is_empty() => Ok(line),
        _ => Err((12, at, 1)),
    }
}

fn read_nodes(lines: &mut Lines, order: &[usize; 3], site: &mut Table) -> Result<(), Fault> {
    while let Some(line) = lines.next() {
        if line.is_empty() {
            return Ok(());
        }
        let count = site.nodes;
        let (mut rack, mut keep) = (0, false);
        judged(line, lines.number, order, |name, text| match name {
            0 => match number(text, LIMIT) {
                Some(n) if n == count && n <= 255 => None,
                Some(_) => Some(13),
                None => Some(11),
            },
            1 => match number(text, 31) {
                Some(n) => {
                    rack = n as u8;
                    None
                }
                None => Some(11),
            },
            _ => {
                keep = text == b"y";
                if keep || text == b"n" { None } else { Some(11) }
            }
        })?;
        site.rack[count as usize] = rack;
        site.keep[count as usize] = keep;
        site.nodes += 1;
    }
    Ok(())
}

fn read_regular(lines: &mut Lines, order: &[usize; 2], site: &mut Table) -> Result<bool, Fault> {
    let line = one_value_line(lines)?;
    let [racks, each] = numbers(line, lines.number, order)?;
    if lines.next().is_some_and(|line| !line.is_empty()) {
        return Err((12, lines.number, 1));
    }
    if racks > 32 || each > 256 {
        return Ok(true);
    }
    let Some(regular) = Regular::new(&VaultSite { racks, each, targets: u32::MAX }) else { return Ok(true) };
    site.nodes = regular.nodes();
    for v in 0..site.nodes {
        site.rack[v as usize] = regular.rack(v) as u8;
        site.keep[v as usize] = true;
    }
    Ok(false)
}

fn read_head(lines: &mut Lines) -> Result<Head, Fault> {
    let names = lines.next().ok_or((14, 1, 1))?;
    let columns = order(names, [b"n", b"k", b"c", b"targets"]).ok_or((10, 1, 1))?;
    let line = one_value_line(lines)?;
    let [n, k, c, targets] = numbers(line, lines.number, &columns)?;
    if !lines.next().ok_or((14, 3, 1))?.is_empty() {
        return Err((12, 3, 1));
    }
    let names = lines.next().ok_or((14, 4, 1))?;
    let mut site = Table { rack: [0; 256], keep: [false; 256], nodes: 0 };
    let outside = if let Some(columns) = order(names, [b"racks", b"each"]) {
        read_regular(lines, &columns, &mut site)?
    } else if let Some(columns) = order(names, [b"node", b"rack", b"keep"]) {
        read_nodes(lines, &columns, &mut site)?;
        false
    } else {
        return Err((10, 4, 1));
    };
    for v in 0..256 {
        site.keep[v] &= targets >> site.rack[v] & 1 == 1;
    }
    Ok(Head { n, k, c, site, outside })
}

fn space(site: &Table, c: u32) -> u32 {
    let mut tally = [0_u32; 32];
    for v in 0..site.nodes as usize {
        tally[site.rack[v] as usize] += site.keep[v] as u32;
    }
    tally.iter().map(|&t| t.min(c)).sum()
}

struct Stripe {
    numbers: [u32; 16],
    nodes: [[u16; 8]; 16],
    lens: [u8; 16],
    blocks: usize,
    plan: Option<Found>,
}

const EMPTY: Stripe = Stripe { numbers: [0; 16], nodes: [[0; 8]; 16], lens: [0; 16], blocks: 0, plan: None };

impl Stripe {
    fn clear(&mut self) {
        self.blocks = 0;
        self.plan = None;
    }
}

struct Store {
    head: Head,
    stripes: [Stripe; 32],
}

/// A node list's first eight nodes, and how many it has.
struct List {
    nodes: [u16; 8],
    len: usize,
}

fn list(text: &[u8]) -> Option<List> {
    let mut list = List { nodes: [0; 8], len: 0 };
    if text.is_empty() {
        return Some(list);
    }
    for word in text.split(|&b| b == b' ') {
        let v = number(word, 65535)?;
        if list.len < 8 {
            list.nodes[list.len] = v as u16;
        }
        list.len += 1;
    }
    Some(list)
}

impl Store {
    fn search(&self, stripe: &Stripe) -> Search {
        let mut search = Search::new(self.head.c);
        for x in 0..stripe.blocks {
            search.read(&self.head.site, x, &stripe.nodes[x][..stripe.lens[x] as usize & 15]);
        }
        search
    }

    /// The core rack of a list that is well formed.
    fn core(&self, list: &List) -> Result<usize, u32> {
        if list.len < 2 || list.len > 8 {
            return Err(3);
        }
        let nodes = &list.nodes[..list.len];
        let site = &self.head.site;
        if nodes.iter().any(|&v| v as u32 >= site.nodes) {
            return Err(4);
        }
        if (1..nodes.len()).any(|i| nodes[..i].contains(&nodes[i])) {
            return Err(5);
        }
        let core = site.rack(nodes[0] as u32);
        if nodes[1..].iter().any(|&v| site.rack(v as u32) == core) {
            return Err(6);
        }
        Ok(core as usize)
    }

    /// The new block's position; or a refusal, with the set of blocks in the way.
    fn offer(&mut self, block: u32, list: &List) -> Result<usize, (u32, u32)> {
        let core = self.core(list).map_err(|number| (number, 0))?;
        if self.stripes.iter().any(|s| s.numbers[..s.blocks].contains(&block)) {
            return Err((22, 0));
        }
        let stripe = &self.stripes[core];
        let x = stripe.blocks;
        if stripe.plan.is_some() || x >= self.head.k as usize {
            return Err((23, 0));
        }
        let mut search = self.search(stripe);
        search.read(&self.head.site, x, &list.nodes[..list.len]);
        let word = search.place_all(x + 1);
        if word != 0 {
            return Err((24, word));
        }
        let stripe = &mut self.stripes[core];
        stripe.numbers[x] = block;
        stripe.nodes[x] = list.nodes;
        stripe.lens[x] = list.len as u8;
        stripe.blocks += 1;
        Ok(x + 1)
    }

    fn seal(&mut self, rack: u32, start: u32) -> Result<(), u32> {
        if rack > 31 {
            return Err(7);
        }
        if start >= self.head.site.nodes {
            return Err(4);
        }
        let stripe = &self.stripes[rack as usize];
        if stripe.plan.is_some() {
            return Err(26);
        }
        if stripe.blocks < self.head.k as usize {
            return Err(25);
        }
        let mut search = self.search(stripe);
        search.place_all(stripe.blocks);
        search.settle(stripe.blocks);
        let mut found = Found { nodes: [0; 24], len: 0 };
        for x in 0..stripe.blocks {
            found.put(search.seats[x].node[(search.at[x] & 7) as usize] as u32);
        }
        add_parity(&mut search, &self.head.site, start, self.head.n - self.head.k, &mut found);
        self.stripes[rack as usize].plan = Some(found);
        Ok(())
    }

    fn sealed(&self, rack: u32) -> Result<(&Stripe, &Found), u32> {
        let stripe = self.stripes.get(rack as usize).ok_or(7_u32)?;
        stripe.plan.as_ref().map(|plan| (stripe, plan)).ok_or(27)
    }
}

enum Call {
    Offer(List),
    Seal(u32),
    Plan,
    Deletions,
    Release,
    Abandon,
}

fn letter(text: &[u8]) -> Option<u8> {
    match text {
        [b] if b"ospdra".contains(b) => Some(*b),
        _ => None,
    }
}

fn read_call(line: &[u8], at: usize, order: &[usize; 3]) -> Result<(u32, Call), Fault> {
    let found = fields(line);
    let kind = (0..found.len.min(3)).find(|&i| order[i] == 0).and_then(|i| letter(found.at[i].0));
    let (mut first, mut call) = (0, Call::Plan);
    judged(line, at, order, |name, text| match name {
        0 => kind.is_none().then_some(11),
        1 => match number(text, LIMIT) {
            Some(n) => {
                first = n;
                None
            }
            None => Some(11),
        },
        _ => {
            let Some(kind) = kind else { return None };
            let read = match kind {
                b'o' => list(text).map(Call::Offer),
                b's' => number(text, 65535).map(Call::Seal),
                _ if !text.is_empty() => None,
                b'p' => Some(Call::Plan),
                b'd' => Some(Call::Deletions),
                b'r' => Some(Call::Release),
                _ => Some(Call::Abandon),
            };
            match read {
                Some(read) => {
                    call = read;
                    None
                }
                None => Some(11),
            }
        }
    })?;
    Ok((first, call))
}

fn put_deletions(out: &mut Out, stripe: &Stripe, plan: &Found) {
    let mut space: &[u8] = b"";
    for x in 0..stripe.blocks {
        for &v in &stripe.nodes[x][..stripe.lens[x] as usize & 15] {
            if v != plan.nodes[x] {
                out.bytes(space);
                space = b" ";
                out.number(stripe.numbers[x]);
                out.bytes(b":");
                out.number(v as u32);
            }
        }
    }
}

fn put_numbers(out: &mut Out, numbers: impl Iterator<Item = u32>) {
    for (i, n) in numbers.enumerate() {
        if i > 0 {
            out.bytes(b" ");
        }
        out.number(n);
    }
}

/// Makes a call and writes its line up to the end, where it is not refused.
fn accepted(store: &mut Store, first: u32, call: Call, out: &mut Out) -> Result<(), (u32, u32)> {
    let plain = |number| (number, 0);
    match call {
        Call::Offer(list) => {
            let position = store.offer(first, &list)?;
            out.head(b"ok", first);
            out.number(position as u32);
        }
        Call::Seal(start) => {
            store.seal(first, start).map_err(plain)?;
            out.head(b"ok", first);
        }
        Call::Plan => {
            let (_, plan) = store.sealed(first).map_err(plain)?;
            out.head(b"ok", first);
            put_numbers(out, plan.nodes[..plan.len].iter().map(|&v| v as u32));
        }
        Call::Deletions => {
            let (stripe, plan) = store.sealed(first).map_err(plain)?;
            out.head(b"ok", first);
            put_deletions(out, stripe, plan);
        }
        Call::Release => {
            store.sealed(first).map_err(plain)?;
            store.stripes[first as usize].clear();
            out.head(b"ok", first);
        }
        Call::Abandon => {
            let stripe = store.stripes.get_mut(first as usize).ok_or((7, 0))?;
            if stripe.blocks == 0 {
                return Err((28, 0));
            }
            stripe.clear();
            out.head(b"ok", first);
        }
    }
    Ok(())
}

fn answer(store: &mut Store, first: u32, call: Call, out: &mut Out) {
    if let Err((number, word)) = accepted(store, first, call, out) {
        out.number(number);
        out.bytes(b",");
        out.number(first);
        out.bytes(b",");
        put_numbers(out, (1..=32).filter(|p| word >> (p - 1) & 1 == 1));
    }
    out.bytes(b"\n");
}

fn told(sheet: &[u8], out: &mut Out) -> Result<(), Fault> {
    if sheet.len() > 65536 {
        return Err((14, 1, 1));
    }
    let mut lines = Lines { left: sheet, number: 0 };
    let head = read_head(&mut lines)?;
    if head.outside {
        return Err((9, 5, 1));
    }
    let (n, k, c) = (head.n, head.k, head.c);
    if !(1..=16).contains(&k) || n <= k || n > 24 || c < 1 || c > n - k {
        return Err((1, 2, 1));
    }
    if space(&head.site, c) < n {
        return Err((2, 2, 1));
    }
    let at = lines.number + 1;
    let names = lines.next().ok_or((14, at, 1))?;
    let columns = order(names, [b"call", b"first", b"rest"]).ok_or((10, at, 1))?;
    let mut store = Store { head, stripes: [EMPTY; 32] };
    while let Some(line) = lines.next() {
        match read_call(line, lines.number, &columns) {
            Ok((first, call)) => answer(&mut store, first, call, out),
            Err(fault) => out.fault(fault),
        }
    }
    Ok(())
}

/// Writes the answers from the front of a buffer, and tells how many bytes they are.
pub fn run(sheet: &[u8], buffer: &mut [u8]) -> usize {
    let mut out = Out { buffer, len: 0 };
    out.bytes(b"answer,first,rest\n");
    if let Err(fault) = told(sheet, &mut out) {
        out.fault(fault);
    }
    out.len
}

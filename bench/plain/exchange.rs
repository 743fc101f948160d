//! The exchange: tables, clearing by a walk along two ladders, settlement in one pass.

use crate::forms::{Bid, Call, Side};

const LOWEST_PRICE: i32 = -50_000;
const HIGHEST_PRICE: i32 = 300_000;
const LARGEST_POSITION: i64 = 100_000_000_000_000;
const BLOCK_PLACES: usize = 256;
const ACCOUNT_PLACES: usize = 512;

type Refusal = u8;

pub enum Answer {
    Ok,
    Cleared,
    Settled { income: i64, residue: i64 },
}

#[derive(Clone, Copy, PartialEq, Eq)]
enum State {
    Idle,
    Open,
    Closed,
    Cleared,
}

/// What orders the blocks of a side, from left to right; `level` is the price of a sale, and minus that of a purchase.
#[derive(Clone, Copy, PartialEq, Eq, PartialOrd, Ord)]
struct Rank {
    level: i32,
    stamp: u32,
    volume: u32,
    key: u32,
}

#[derive(Clone, Copy)]
struct Block {
    rank: Rank,
    agent: u32,
    matched: u32,
}

/// Blocks by rank, and beside them their keys.
struct Table {
    blocks: Vec<Block>,
    keys: Vec<u32>,
}

struct Account {
    agent: u32,
    position: i64,
}

pub struct Clearing {
    pub prices: [i64; 2],
    pub flow: i64,
    pub surplus: i64,
}

pub struct Entry {
    pub agent: u32,
    pub unit: u32,
    pub number: u32,
    pub cents: i64,
    account: usize,
}

pub struct Exchange {
    state: State,
    /// Zone 1 sales, zone 1 purchases, zone 2 sales, zone 2 purchases.
    tables: [Table; 4],
    accounts: Vec<Account>,
    last_session: u32,
    capacities: [u32; 2],
    income: i64,
    residue: i64,
    clearing: Clearing,
    entries: Vec<Entry>,
}

fn pack(unit: u32, number: u32) -> u32 {
    unit << 5 | number
}

fn is_unit(unit: u32) -> bool {
    (1..=999_999).contains(&unit)
}

fn is_number(number: u32) -> bool {
    (1..=25).contains(&number)
}

fn is_agent(agent: u32) -> bool {
    (1..=9_999).contains(&agent)
}

fn table_index(zone: u32, side: Side) -> Option<usize> {
    if zone == 1 || zone == 2 { Some(2 * (zone as usize - 1) + side as usize) } else { None }
}

/// Tenths of a cent to the nearest cent, a half away from zero.
fn to_cents(exact: i64) -> i64 {
    (exact + 5 * exact.signum()) / 10
}

impl Table {
    fn new() -> Table {
        Table { blocks: Vec::with_capacity(BLOCK_PLACES), keys: Vec::with_capacity(BLOCK_PLACES) }
    }

    fn empty(&mut self) {
        self.blocks.clear();
        self.keys.clear();
    }

    fn add(&mut self, block: Block) {
        let place = self.blocks.partition_point(|other| other.rank < block.rank);
        self.blocks.insert(place, block);
        self.keys.insert(place, block.rank.key);
    }

    fn unmatch(&mut self) {
        for block in &mut self.blocks {
            block.matched = 0;
        }
    }
}

/// One side of a market: the first `ahead` tenths, and then the blocks of one table or of two merged ones.
struct Ladder<'a> {
    tables: [&'a mut [Block]; 2],
    next: [usize; 2],
    ahead: u32,
    /// The level of the last block of which something was taken.
    reached: Option<i32>,
    worth: i64,
}

impl<'a> Ladder<'a> {
    fn new(one: &'a mut [Block], two: &'a mut [Block], ahead: u32) -> Ladder<'a> {
        Ladder { tables: [one, two], next: [0, 0], ahead, reached: None, worth: 0 }
    }

    /// Which table has the block that is next, and that block; blocks of equal rank are taken from the first table.
    fn front(&self) -> Option<(usize, Block)> {
        match (self.tables[0].get(self.next[0]), self.tables[1].get(self.next[1])) {
            (Some(one), Some(two)) if two.rank < one.rank => Some((1, *two)),
            (Some(one), _) => Some((0, *one)),
            (None, Some(two)) => Some((1, *two)),
            (None, None) => None,
        }
    }

    fn take(&mut self, from: usize, block: Block, volume: u32) {
        let place = self.next[from];
        let matched = &mut self.tables[from][place].matched;
        *matched += volume;
        if *matched == block.rank.volume {
            self.next[from] += 1;
        }
        self.reached = Some(block.rank.level);
        self.worth += block.rank.level as i64 * volume as i64;
    }
}

/// Matches the two ladders as far as they meet; answers the low end of the bracket.
fn walk(sales: &mut Ladder, purchases: &mut Ladder) -> i32 {
    loop {
        if sales.ahead > 0 {
            let Some((from, purchase)) = purchases.front() else { break };
            let volume = sales.ahead.min(purchase.rank.volume - purchase.matched);
            purchases.take(from, purchase, volume);
            sales.ahead -= volume;
            continue;
        }
        let Some((seller, sale)) = sales.front() else { break };
        let left = sale.rank.volume - sale.matched;
        if purchases.ahead > 0 {
            let volume = purchases.ahead.min(left);
            sales.take(seller, sale, volume);
            purchases.ahead -= volume;
            continue;
        }
        let Some((purchaser, purchase)) = purchases.front() else { break };
        if sale.rank.level > -purchase.rank.level {
            break;
        }
        let volume = left.min(purchase.rank.volume - purchase.matched);
        sales.take(seller, sale, volume);
        purchases.take(purchaser, purchase, volume);
    }
    let bid = purchases.front().map_or(LOWEST_PRICE, |(_, purchase)| -purchase.rank.level);
    LOWEST_PRICE.max(sales.reached.unwrap_or(LOWEST_PRICE)).max(bid)
}

fn matched(blocks: &[Block]) -> i64 {
    blocks.iter().map(|block| block.matched as i64).sum()
}

impl Exchange {
    pub fn new() -> Exchange {
        Exchange {
            state: State::Idle,
            tables: [Table::new(), Table::new(), Table::new(), Table::new()],
            accounts: Vec::with_capacity(ACCOUNT_PLACES),
            last_session: 0,
            capacities: [0, 0],
            income: 0,
            residue: 0,
            clearing: Clearing { prices: [0, 0], flow: 0, surplus: 0 },
            entries: Vec::with_capacity(4 * BLOCK_PLACES),
        }
    }

    pub fn clearing(&self) -> &Clearing {
        &self.clearing
    }

    /// The entries of the last settle, without the congestion income.
    pub fn entries(&self) -> &[Entry] {
        &self.entries
    }

    pub fn make(&mut self, call: Call) -> Result<Answer, Refusal> {
        use State::*;
        match (call, self.state) {
            (Call::Enter(zone, side, bid), Open) => self.enter(zone, side, bid),
            (Call::Withdraw(zone, side, unit, number), Open) => self.withdraw(zone, side, unit, number),
            (Call::Admit(agent), Idle | Open) => self.admit(agent),
            (Call::Begin(session, forth, back), Idle) => self.begin(session, forth, back),
            (Call::Close, Open) => {
                self.state = Closed;
                Ok(Answer::Ok)
            }
            (Call::Clear, Closed) => Ok(self.clear()),
            (Call::Settle, Cleared) => self.settle(),
            (Call::Annul, Open | Closed | Cleared) => {
                self.state = Idle;
                Ok(Answer::Ok)
            }
            _ => Err(15),
        }
    }

    fn account(&self, agent: u32) -> Result<usize, usize> {
        self.accounts.binary_search_by_key(&agent, |account| account.agent)
    }

    fn admit(&mut self, agent: u32) -> Result<Answer, Refusal> {
        if !is_agent(agent) {
            return Err(3);
        }
        match self.account(agent) {
            Ok(_) => Err(7),
            Err(_) if self.accounts.len() == ACCOUNT_PLACES => Err(8),
            Err(place) => {
                self.accounts.insert(place, Account { agent, position: 0 });
                Ok(Answer::Ok)
            }
        }
    }

    fn begin(&mut self, session: u32, forth: u32, back: u32) -> Result<Answer, Refusal> {
        if session > 1_000_000 || session <= self.last_session {
            return Err(10);
        }
        if forth.max(back) > 30_000_000 {
            return Err(11);
        }
        self.last_session = session;
        self.capacities = [forth, back];
        self.tables.iter_mut().for_each(Table::empty);
        self.state = State::Open;
        Ok(Answer::Ok)
    }

    fn enter(&mut self, zone: u32, side: Side, bid: Bid) -> Result<Answer, Refusal> {
        let Some(index) = table_index(zone, side) else { return Err(3) };
        if !(is_agent(bid.agent) && is_unit(bid.unit) && is_number(bid.number)) {
            return Err(3);
        }
        if !(LOWEST_PRICE..=HIGHEST_PRICE).contains(&bid.price) {
            return Err(4);
        }
        if !(1..=100_000).contains(&bid.volume) {
            return Err(5);
        }
        if self.account(bid.agent).is_err() {
            return Err(6);
        }
        let key = pack(bid.unit, bid.number);
        let table = &mut self.tables[index];
        if table.keys.contains(&key) {
            return Err(7);
        }
        if table.blocks.len() == BLOCK_PLACES {
            return Err(8);
        }
        let level = match side {
            Side::Sale => bid.price,
            Side::Purchase => -bid.price,
        };
        let rank = Rank { level, stamp: bid.stamp, volume: bid.volume, key };
        table.add(Block { rank, agent: bid.agent, matched: 0 });
        Ok(Answer::Ok)
    }

    fn withdraw(&mut self, zone: u32, side: Side, unit: u32, number: u32) -> Result<Answer, Refusal> {
        let Some(index) = table_index(zone, side) else { return Err(3) };
        if !(is_unit(unit) && is_number(number)) {
            return Err(3);
        }
        let table = &mut self.tables[index];
        let key = pack(unit, number);
        match table.keys.iter().position(|&other| other == key) {
            None => Err(9),
            Some(place) => {
                table.blocks.remove(place);
                table.keys.remove(place);
                Ok(Answer::Ok)
            }
        }
    }

    fn clear(&mut self) -> Answer {
        self.clear_common();
        let size = self.clearing.flow.unsigned_abs();
        let capacity = self.capacities[if self.clearing.flow >= 0 { 0 } else { 1 }];
        if size > capacity as u64 {
            self.clear_split(capacity);
        }
        self.state = State::Cleared;
        Answer::Cleared
    }

    fn clear_common(&mut self) {
        self.tables.iter_mut().for_each(Table::unmatch);
        let [sales_1, purchases_1, sales_2, purchases_2] = &mut self.tables;
        let mut sales = Ladder::new(&mut sales_1.blocks, &mut sales_2.blocks, 0);
        let mut purchases = Ladder::new(&mut purchases_1.blocks, &mut purchases_2.blocks, 0);
        let price = walk(&mut sales, &mut purchases) as i64;
        let surplus = -sales.worth - purchases.worth;
        let flow = matched(&sales_1.blocks) - matched(&purchases_1.blocks);
        self.clearing = Clearing { prices: [price, price], flow, surplus };
    }

    fn clear_split(&mut self, capacity: u32) {
        self.tables.iter_mut().for_each(Table::unmatch);
        let exporter = if self.clearing.flow > 0 { 0 } else { 1 };
        self.clearing.flow = if exporter == 0 { capacity as i64 } else { -(capacity as i64) };
        self.clearing.surplus = 0;
        for zone in 0..2 {
            let (imported, exported) = if zone == exporter { (0, capacity) } else { (capacity, 0) };
            let [sales, purchases] = &mut self.tables[2 * zone..2 * zone + 2] else { unreachable!() };
            let mut sales = Ladder::new(&mut sales.blocks, &mut [], imported);
            let mut purchases = Ladder::new(&mut purchases.blocks, &mut [], exported);
            self.clearing.prices[zone] = walk(&mut sales, &mut purchases) as i64;
            self.clearing.surplus -= sales.worth + purchases.worth;
        }
    }

    fn settle(&mut self) -> Result<Answer, Refusal> {
        let [price_1, price_2] = self.clearing.prices;
        let mut total = 0;
        self.entries.clear();
        for (table, price) in self.tables.iter().zip([price_1, -price_1, price_2, -price_2]) {
            for block in table.blocks.iter().filter(|block| block.matched > 0) {
                let cents = to_cents(block.matched as i64 * price);
                let account = self.accounts.binary_search_by_key(&block.agent, |a| a.agent);
                let account = account.expect("enter has seen this agent's account");
                let (unit, number) = (block.rank.key >> 5, block.rank.key & 31);
                self.entries.push(Entry { agent: block.agent, unit, number, cents, account });
                self.accounts[account].position += cents;
                total += cents;
            }
        }
        let income = to_cents(self.clearing.flow * (price_2 - price_1));
        let residue = -(total + income);
        if self.past_the_limits(income, residue) {
            for entry in &self.entries {
                self.accounts[entry.account].position -= entry.cents;
            }
            return Err(13);
        }
        self.income += income;
        self.residue += residue;
        self.state = State::Idle;
        Ok(Answer::Settled { income, residue })
    }

    fn past_the_limits(&self, income: i64, residue: i64) -> bool {
        let past = |n: i64| n.abs() > LARGEST_POSITION;
        past(self.income + income)
            || past(self.residue + residue)
            || self.entries.iter().any(|entry| past(self.accounts[entry.account].position))
    }
}

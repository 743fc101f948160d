//! The forms of a line (docs/CALLS.md).

#[derive(Clone, Copy)]
pub enum Side {
    Sale,
    Purchase,
}

pub struct Bid {
    pub agent: u32,
    pub unit: u32,
    pub number: u32,
    pub stamp: u32,
    pub price: i32,
    pub volume: u32,
}

pub enum Call {
    Admit(u32),
    Begin(u32, u32, u32),
    Enter(u32, Side, Bid),
    Withdraw(u32, Side, u32, u32),
    Close,
    Clear,
    Settle,
    Annul,
}

struct Cursor<'a> {
    rest: &'a [u8],
}

impl Cursor<'_> {
    fn text(&mut self, text: &[u8]) -> Option<()> {
        self.rest = self.rest.strip_prefix(text)?;
        Some(())
    }

    /// Up to nine digits without leading zero.
    fn number(&mut self) -> Option<u32> {
        let mut n = 0;
        let mut length = 0;
        while let Some(&digit @ b'0'..=b'9') = self.rest.get(length) {
            if length == 9 || (length == 1 && n == 0) {
                return None;
            }
            n = 10 * n + (digit - b'0') as u32;
            length += 1;
        }
        self.rest = &self.rest[length..];
        if length == 0 { None } else { Some(n) }
    }

    fn number_then(&mut self, text: &[u8]) -> Option<u32> {
        let n = self.number()?;
        self.text(text)?;
        Some(n)
    }

    fn price(&mut self) -> Option<i32> {
        if self.text(b"-").is_none() {
            return Some(self.number()? as i32);
        }
        match self.number()? {
            0 => None,
            n => Some(-(n as i32)),
        }
    }

    fn side(&mut self) -> Option<Side> {
        if self.text(b"sale").is_some() {
            return Some(Side::Sale);
        }
        self.text(b"purchase")?;
        Some(Side::Purchase)
    }

    fn enter(&mut self) -> Option<Call> {
        let zone = self.number_then(b" ")?;
        let side = self.side()?;
        self.text(b" (")?;
        let agent = self.number_then(b" ")?;
        let unit = self.number_then(b" ")?;
        let number = self.number_then(b" ")?;
        let stamp = self.number_then(b" ")?;
        let price = self.price()?;
        self.text(b" ")?;
        let volume = self.number_then(b"))")?;
        Some(Call::Enter(zone, side, Bid { agent, unit, number, stamp, price, volume }))
    }

    fn withdraw(&mut self) -> Option<Call> {
        let zone = self.number_then(b" ")?;
        let side = self.side()?;
        self.text(b" (")?;
        Some(Call::Withdraw(zone, side, self.number_then(b" ")?, self.number_then(b"))")?))
    }

    fn begin(&mut self) -> Option<Call> {
        Some(Call::Begin(self.number_then(b" ")?, self.number_then(b" ")?, self.number_then(b")")?))
    }
}

/// The call that the line is, if it is a form.
pub fn read(line: &[u8]) -> Option<Call> {
    match line {
        b"(close)" => return Some(Call::Close),
        b"(clear)" => return Some(Call::Clear),
        b"(settle)" => return Some(Call::Settle),
        b"(annul)" => return Some(Call::Annul),
        _ => {}
    }
    let mut cursor = Cursor { rest: line };
    let call = if cursor.text(b"(enter ").is_some() {
        cursor.enter()?
    } else if cursor.text(b"(withdraw ").is_some() {
        cursor.withdraw()?
    } else if cursor.text(b"(admit ").is_some() {
        Call::Admit(cursor.number_then(b")")?)
    } else {
        cursor.text(b"(begin ")?;
        cursor.begin()?
    };
    if cursor.rest.is_empty() { Some(call) } else { None }
}

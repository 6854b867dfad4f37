//! Streams of requests for the benchmarks.

use super::below;
use rdram::{Request, Settings, REQUEST_BYTES};

type Bytes = [u8; REQUEST_BYTES];

struct Size {
    rows: usize,
    columns: usize,
    requests: usize,
}

impl Size {
    fn stream(&self, request: impl FnMut(usize) -> Request) -> Vec<Bytes> {
        let bytes = |request: Request| request.to_bytes();
        (0..self.requests).map(request).map(bytes).collect()
    }

    fn row_hits(&self) -> Vec<Bytes> {
        self.stream(|i| Request::Read {
            bank: 3,
            row: (self.rows / 2) as u16,
            column: (i % self.columns) as u8,
        })
    }

    /// Eight banks in turn; each goes to its next row after eight reads.
    fn interleaved(&self) -> Vec<Bytes> {
        self.stream(|i| Request::Read {
            bank: (2 * (i % 8)) as u8,
            row: (i / 64 % self.rows) as u16,
            column: (i / 8 % self.columns) as u8,
        })
    }

    /// Whole rows, one after the other, over the even banks.
    fn full_writes(&self) -> Vec<Bytes> {
        self.stream(|i| Request::Write {
            bank: (i / self.columns % 16 * 2) as u8,
            row: (i / self.columns / 16 % self.rows) as u16,
            column: (i % self.columns) as u8,
            mask: 0xFFFF,
            data: [i as u8; 16],
        })
    }

    /// Any places, so that most rows must be opened, and any masks.
    fn random_places(&self) -> Vec<Bytes> {
        let mut x = 0x9E37_79B9_7F4A_7C15;
        let (rows, columns) = (self.rows as u64, self.columns as u64);
        self.stream(|i| {
            let (bank, row) = (below(&mut x, 32) as u8, below(&mut x, rows) as u16);
            let (column, mask) = (below(&mut x, columns) as u8, below(&mut x, 0x10000) as u16);
            if below(&mut x, 2) == 0 {
                return Request::Read { bank, row, column };
            }
            let data = [i as u8; 16];
            Request::Write {
                bank,
                row,
                column,
                mask,
                data,
            }
        })
    }

    /// Any places, each closed again: half of them reads.
    fn close_pages(&self) -> Vec<Bytes> {
        let mut x = 0x0F1E_2D3C_4B5A_6978;
        let (rows, columns) = (self.rows as u64, self.columns as u64);
        self.stream(|i| {
            let (bank, row) = (below(&mut x, 32) as u8, below(&mut x, rows) as u16);
            let (column, mask) = (below(&mut x, columns) as u8, below(&mut x, 0x10000) as u16);
            if below(&mut x, 2) == 0 {
                return Request::ReadClose { bank, row, column };
            }
            let data = [i as u8; 16];
            Request::WriteClose {
                bank,
                row,
                column,
                mask,
                data,
            }
        })
    }

    /// A refresh after every read.
    fn refreshes(&self) -> Vec<Bytes> {
        let mut x = 0x1234_5678_9ABC_DEF1;
        self.stream(|i| {
            if i % 2 == 1 {
                return Request::Refresh;
            }
            Request::Read {
                bank: below(&mut x, 32) as u8,
                row: below(&mut x, 4) as u16,
                column: below(&mut x, self.columns as u64) as u8,
            }
        })
    }
}

/// A read of row 0 of bank 0, after which that bank alone is open.
pub const OPEN: Request = Request::Read {
    bank: 0,
    row: 0,
    column: 0,
};

/// Single requests with their names, for a planner in which row 0 of bank 0 is open.
pub const SINGLES: [(&str, Request); 3] = [
    (
        "read of bank 4, bank 0 open",
        Request::Read {
            bank: 4,
            row: 0,
            column: 0,
        },
    ),
    (
        "read of another row, bank 0 open",
        Request::Read {
            bank: 0,
            row: 1,
            column: 0,
        },
    ),
    ("close, bank 0 open", Request::Close),
];

/// Each stream with its name; at least four rows.
pub fn all(settings: &Settings, requests: usize) -> [(&'static str, Vec<Bytes>); 6] {
    let size = Size {
        rows: settings.rows.into(),
        columns: settings.columns.into(),
        requests,
    };
    [
        ("row hits", size.row_hits()),
        ("interleaved", size.interleaved()),
        ("full writes", size.full_writes()),
        ("random", size.random_places()),
        ("refreshes", size.refreshes()),
        ("close pages", size.close_pages()),
    ]
}

//! Each call on 01's whole case: what it answers, and what every lent number holds afterwards.
use desk::{Figures, Refusal, Tables, Walk};

const FILE: &[u8] = include_bytes!("../../../crates/desklower/stdin");
const LOWERED: &[u8] = include_bytes!("../../../crates/desklower/stdout");

const FIGURES: Figures = Figures {
    records: 18,
    scopes: 5,
    symbols: 3,
    contexts: 1,
    bytes: 215,
};

/// Tables of so many record rows and enough others, with two numbers more than the rows take, filled with a pattern.
struct Memory {
    records: Vec<u16>,
    scopes: Vec<u16>,
    symbols: Vec<u16>,
}

impl Memory {
    fn new(records: usize) -> Memory {
        Memory {
            records: vec![7; records * desk::RECORD_ROW + 2],
            scopes: vec![8; 5 * desk::SCOPE_ROW + 1],
            symbols: vec![9; 3 * desk::SYMBOL_ROW + 2],
        }
    }

    fn lend(&mut self) -> Tables<'_> {
        Tables {
            records: &mut self.records,
            scopes: &mut self.scopes,
            symbols: &mut self.symbols,
        }
    }

    fn holds(&self, records: u16, scopes: u16, symbols: u16) -> bool {
        self.records.iter().all(|&x| x == records)
            && self.scopes.iter().all(|&x| x == scopes)
            && self.symbols.iter().all(|&x| x == symbols)
    }
}

#[test]
fn check_tells_the_place() {
    assert_eq!(desk::check(FILE), Ok(()));
    assert_eq!(
        desk::check(&[]),
        Err(Refusal {
            number: 2,
            place: 0
        })
    );
    assert_eq!(
        desk::check(&FILE[..75]),
        Err(Refusal {
            number: 2,
            place: 69
        })
    );
    assert_eq!(
        desk::check(&vec![0; 65536]),
        Err(Refusal {
            number: 1,
            place: 65535
        })
    );
}

#[test]
fn check_counts_mentions() {
    let mut wrong = FILE.to_vec();
    assert_eq!(wrong[21..24], [42, 0, 10]);
    assert_eq!(wrong[32..34], [0, 1]);
    wrong[33] = 2;
    assert_eq!(
        desk::check(&wrong),
        Err(Refusal {
            number: 5,
            place: 21
        })
    );
    let mut short = FILE.to_vec();
    short[23] = 8;
    short.drain(32..34);
    assert_eq!(
        desk::check(&short),
        Err(Refusal {
            number: 4,
            place: 21
        })
    );
}

#[test]
fn figures_come_from_the_source() {
    assert_eq!(desk::figures(FILE), Ok(FIGURES));
    let mut inline = FILE.to_vec();
    inline[4] = 2;
    assert_eq!(
        desk::figures(&inline),
        Err(Refusal {
            number: 8,
            place: 0
        })
    );
}

#[test]
fn lower_writes_the_file_and_clears_the_tables() {
    let mut memory = Memory::new(18);
    let mut output = vec![0xaa; 226];
    assert_eq!(desk::lower(FILE, memory.lend(), &mut output), Ok(FIGURES));
    assert_eq!(&output[..215], LOWERED);
    assert!(output[215..].iter().all(|&b| b == 0xaa));
    assert!(memory.holds(0, 0, 0));
}

#[test]
fn a_refusal_changes_nothing() {
    let mut memory = Memory::new(17);
    let mut output = vec![0xaa; 214];
    let small = Refusal {
        number: 9,
        place: 0,
    };
    assert_eq!(desk::lower(FILE, memory.lend(), &mut output), Err(small));
    assert_eq!(Walk::start(FILE, memory.lend()).err(), Some(small));
    assert!(memory.holds(7, 8, 9));
    let mut memory = Memory::new(18);
    assert_eq!(
        desk::lower(FILE, memory.lend(), &mut output),
        Err(Refusal {
            number: 10,
            place: 214
        })
    );
    assert!(memory.holds(7, 8, 9));
    assert!(output.iter().all(|&b| b == 0xaa));
}

#[test]
fn the_walk_has_18_visits() {
    let mut memory = Memory::new(20);
    let mut walk = Walk::start(FILE, memory.lend()).expect("enough rows");
    assert_eq!(walk.rows(), [0, 12, 18, 0]);
    assert_eq!(walk.tables().2[..5], [10, 6, 2, 0, 2]);
    assert!(walk.tables().2[5..15].iter().all(|&x| x == 0));
    assert_eq!(walk.tables().2[15..], [1, 0, 0, 0, 0]);
    assert_eq!(walk.mentions(), [1]);
    let mut visits = 1;
    while !walk.visit() {
        visits += 1;
    }
    assert_eq!(visits, 18);
    let left: Vec<u16> = walk.tables().0.to_vec();
    assert!(walk.visit());
    assert_eq!(walk.tables().0, left);
    assert_eq!(walk.rows(), [18, 18, 18, 0]);
    assert_eq!(walk.counts(), (5, 3));
    assert_eq!((walk.contexts(), walk.helper()), (1, 0));
    assert_eq!(walk.tables().2[5..15], [5, 1, 1, 1, 0, 2, 17, 4, 0, 0]);
    assert_eq!(walk.tables().2[15..], [1, 4, 2, 0, 0]);
    assert_eq!(walk.mentions(), [1, 4, 2]);
}

#[test]
fn the_last_visit_imports_the_helper() {
    let mut module = FILE.to_vec();
    module[4] = 0;
    module[6] = 1;
    let mut memory = Memory::new(20);
    memory.symbols = vec![9; 4 * desk::SYMBOL_ROW];
    let mut walk = Walk::start(&module, memory.lend()).expect("enough rows");
    for _ in 0..17 {
        assert!(!walk.visit());
    }
    assert_eq!(walk.rows(), [17, 19, 20, 17]);
    assert_eq!(walk.mentions(), [1, 4, 1, 2]);
    assert!(walk.visit());
    assert_eq!(walk.mentions(), [1, 4, 2, 2]);
    assert_eq!(walk.rows(), [20, 20, 20, 0]);
    assert_eq!((walk.contexts(), walk.helper()), (1, 3));
    let left: Vec<u16> = walk.tables().0.to_vec();
    assert_eq!(left[..7], [1, 1, 0, 0, 2, 0, 0]);
    assert_eq!(left[7..14], [17, 4, 0, 0, 1, 0, 0]);
    assert_eq!(left[14..21], [20, 3, 3, 0, 0, 0, 0]);
    assert!(walk.visit());
    assert_eq!(walk.tables().0, left);
}

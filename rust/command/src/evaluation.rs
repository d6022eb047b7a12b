//! The calls that draw a sheet, with the buffers that they are lent.

use zimgurav::{
    refused, store_bytes, work_bytes, Currents, Found, Refusal, MOST_BUDGET, ORDER_BYTES,
    PATTERN_BYTES,
};

use crate::arguments::Arguments;
use crate::block::Block;
use crate::failure::Failure;
use crate::number::counted;
use crate::options::{BUDGET, HOP_LIMIT, RATIO};
use crate::order::{Order, Source, BOUNDS, CONE};
use crate::pattern::Pattern;
use crate::progress;
use crate::sheet::Sheet;
use crate::table::Table;

/// What the calls take beside a block. A call reads what it needs.
pub struct Setting {
    pub hop_limit: u64,
    pub ratio: u64,
    pub budget: u64,
    pub table: Table,
    /// Where the list of inputs to split comes from.
    order: Source,
}

impl Setting {
    /// The values of the options. Their defaults are those of the program `estimate`, but for the budget.
    pub fn given(arguments: &Arguments) -> Result<Self, Failure> {
        Ok(Setting {
            hop_limit: arguments.number(&HOP_LIMIT)?,
            ratio: arguments.number(&RATIO)?,
            budget: arguments.number(&BUDGET)?,
            table: Table::given(arguments)?,
            order: Source::given(arguments),
        })
    }

    /// The refusal of an argument, with its value.
    fn refused(&self, block: &Block, refusal: Refusal) -> Failure {
        let standing = match refusal.number {
            refused::HOP_LIMIT => format!("the hop limit is {}", counted(self.hop_limit, "run")),
            refused::TABLE => format!("the table is {}", self.table.words),
            refused::RATIO => format!("the ratio is {}", counted(self.ratio, "thousandth")),
            refused::BUDGET => format!("the budget is {}", counted(self.budget, "split")),
            _ => String::new(),
        };
        Failure::refused(&block.name, refusal, None, &standing)
    }
}

/// A drop and its sheet, of an envelope or of a simulation.
pub struct Drawn {
    /// In nanovolts.
    pub drop: u64,
    pub sheet: Sheet,
}

impl Drawn {
    fn new(currents: Currents, words: Vec<zimgurav::Word>) -> Self {
        Drawn {
            drop: currents.drop,
            sheet: Sheet::new(words, currents.quiet),
        }
    }
}

/// The envelope of a block.
pub fn envelope(block: &Block, setting: &Setting) -> Result<Drawn, Failure> {
    let mut words = Sheet::lent();
    let currents = zimgurav::envelope(
        &block.file,
        setting.hop_limit,
        &setting.table.resistances,
        &mut words,
        &mut vec![0; work_bytes(block.counts.nets)],
    );
    let currents = currents.map_err(|refusal| setting.refused(block, refusal))?;
    Ok(Drawn::new(currents, words))
}

/// The simulation of a pattern.
pub fn simulate(block: &Block, setting: &Setting, pattern: &Pattern) -> Result<Drawn, Failure> {
    let mut words = Sheet::lent();
    let currents = zimgurav::simulate(
        &block.file,
        &setting.table.resistances,
        &mut words,
        &pattern.lent(),
        &mut vec![0; work_bytes(block.counts.nets)],
    );
    match currents {
        Ok(currents) => Ok(Drawn::new(currents, words)),
        Err(refusal) if refusal.number == refused::PATTERN => {
            let net = refusal.place as usize;
            let given = pattern.words().nth(net).unwrap_or_default();
            let standing = format!("{}; the pattern has {given} there", block.net_in_words(net));
            let failure = Failure::refused(&block.name, refusal, Some("net"), &standing);
            Err(failure)
        }
        Err(refusal) => Err(setting.refused(block, refusal)),
    }
}

/// What a search found.
pub struct Searched {
    /// The list of inputs that the search was lent.
    pub order: Order,
    pub found: Found,
    pub ceiling: Sheet,
    /// The worst pattern found.
    pub pattern: Pattern,
    /// The currents of that pattern.
    pub simulated: Drawn,
}

/// The list of inputs to split, from the source that the setting has.
fn order(block: &Block, setting: &Setting, work: &mut [u8]) -> Result<Order, Failure> {
    let mut list = [0; ORDER_BYTES];
    let (word, inputs) = match &setting.order {
        Source::File(path) => return Order::load(block, path),
        Source::Cone => (CONE, zimgurav::cone_order(&block.file, &mut list)),
        Source::Bounds => {
            let table = &setting.table.resistances;
            let inputs =
                zimgurav::bound_order(&block.file, setting.hop_limit, table, work, &mut list);
            (BOUNDS, inputs)
        }
    };
    let inputs = inputs.map_err(|refusal| setting.refused(block, refusal))?;
    Ok(Order::made(word, &list[..inputs as usize]))
}

/// Searches a block, and simulates the pattern that the search hands over.
pub fn search(block: &Block, setting: &Setting) -> Result<Searched, Failure> {
    let mut words = Sheet::lent();
    let mut bytes = [0; PATTERN_BYTES];
    let mut work = vec![0; work_bytes(block.counts.nets)];
    let order = order(block, setting, &mut work)?;
    // A budget above the most is refused before anyone looks at the store.
    let mut store = vec![0; store_bytes(setting.budget.min(MOST_BUDGET))];
    let found = progress::watched("searching", || {
        zimgurav::search(
            &block.file,
            setting.hop_limit,
            &setting.table.resistances,
            setting.ratio,
            setting.budget,
            &order.lent,
            &mut words,
            &mut bytes,
            &mut work,
            &mut store,
        )
    });
    let found = found.map_err(|refusal| match refusal.number {
        refused::ORDER => order.refused(block, refusal),
        _ => setting.refused(block, refusal),
    })?;
    let pattern = Pattern::found(block, &bytes);
    Ok(Searched {
        order,
        ceiling: Sheet::new(words, found.quiet),
        simulated: simulate(block, setting, &pattern)?,
        pattern,
        found,
    })
}

//! A call made from its line, and its answer put into words.

use crate::hash::hash;
use crate::Implementation;
use zimgurav::{Counts, Currents, Found, Refusal, Word, ORDER_BYTES};

/// What each byte of a lent buffer holds before a call.
const UNUSED: u8 = 0xee;

/// Makes the call of a line in an implementation, and returns its answer in the words of the stored
/// answers. Where a refused call changed a lent buffer, the answer says so, which no stored one does.
///
/// # Panics
///
/// If the line is no call.
pub fn answer(implementation: &Implementation, call: &str) -> String {
    let mut words = call.split(' ');
    let operation = words.next().unwrap_or_default();
    let words: Vec<&str> = words.collect();
    let mut lent = Lent::default();
    let accepted = match operation {
        "read" => read(implementation, arguments(words)),
        "envelope" => lent.envelope(implementation, arguments(words)),
        "simulate" => lent.simulate(implementation, arguments(words)),
        "search" => {
            let (list, others) = list_of_search(implementation, words);
            lent.search(implementation, &list, others)
        }
        "coneorder" => lent.cone_order(implementation, arguments(words)),
        "boundorder" => lent.bound_order(implementation, arguments(words)),
        "bench" => lent.bench(implementation, arguments(words)),
        _ => panic!("no operation: {operation}"),
    };
    accepted.unwrap_or_else(|refusal| lent.refused(refusal))
}

/// The words of the arguments, as many as an operation takes.
fn arguments<const COUNT: usize>(words: Vec<&str>) -> [&str; COUNT] {
    let arguments = words.try_into();
    arguments.unwrap_or_else(|words| panic!("not {COUNT} arguments: {words:?}"))
}

/// The list of inputs of a search, and the other arguments. The list is the sixth of ten arguments. Of
/// nine there is none, and the search takes the first maker's: an empty one where the file is refused.
fn list_of_search<'a>(
    implementation: &Implementation,
    mut words: Vec<&'a str>,
) -> (Vec<u8>, [&'a str; 9]) {
    let given = (words.len() == 10).then(|| bytes(words.remove(5)));
    let others = arguments(words);
    let list = given.unwrap_or_else(|| {
        let mut order = [UNUSED; ORDER_BYTES];
        let inputs = (implementation.cone_order)(&bytes(others[0]), &mut order);
        order[..inputs.unwrap_or(0) as usize].to_vec()
    });
    (list, others)
}

/// Calls Read, which is lent no buffer.
fn read(implementation: &Implementation, [file]: [&str; 1]) -> Result<String, Refusal> {
    let Counts { nets, inputs } = (implementation.read)(&bytes(file))?;
    Ok(format!("read {nets} {inputs}"))
}

/// The buffers that a call is lent and may change; those that it does not take are empty.
#[derive(Default)]
struct Lent {
    sheet: Vec<Word>,
    pattern: Vec<u8>,
    work: Vec<u8>,
    store: Vec<u8>,
    order: Vec<u8>,
    records: Vec<u8>,
}

impl Lent {
    /// Calls Envelope.
    fn envelope(
        &mut self,
        implementation: &Implementation,
        [file, hop_limit, table, sheet, work]: [&str; 5],
    ) -> Result<String, Refusal> {
        self.sheet = unused_words(sheet);
        self.work = unused_bytes(work);
        let currents = (implementation.envelope)(
            &bytes(file),
            decimal(hop_limit),
            &resistances(table),
            &mut self.sheet,
            &mut self.work,
        )?;
        Ok(self.drawn(currents))
    }

    /// Calls Simulate, which only reads the pattern.
    fn simulate(
        &mut self,
        implementation: &Implementation,
        [file, table, pattern, sheet, work]: [&str; 5],
    ) -> Result<String, Refusal> {
        self.sheet = unused_words(sheet);
        self.work = unused_bytes(work);
        let currents = (implementation.simulate)(
            &bytes(file),
            &resistances(table),
            &mut self.sheet,
            &bytes(pattern),
            &mut self.work,
        )?;
        Ok(self.drawn(currents))
    }

    /// Calls Search, which only reads the list of inputs.
    fn search(
        &mut self,
        implementation: &Implementation,
        list: &[u8],
        [file, hop_limit, table, ratio, budget, sheet, pattern, work, store]: [&str; 9],
    ) -> Result<String, Refusal> {
        self.sheet = unused_words(sheet);
        self.pattern = unused_bytes(pattern);
        self.work = unused_bytes(work);
        self.store = unused_bytes(store);
        let found = (implementation.search)(
            &bytes(file),
            decimal(hop_limit),
            &resistances(table),
            decimal(ratio),
            decimal(budget),
            list,
            &mut self.sheet,
            &mut self.pattern,
            &mut self.work,
            &mut self.store,
        )?;
        Ok(self.found(found))
    }

    /// Calls Cone order.
    fn cone_order(
        &mut self,
        implementation: &Implementation,
        [file]: [&str; 1],
    ) -> Result<String, Refusal> {
        let order = unused_list(&mut self.order);
        (implementation.cone_order)(&bytes(file), order)?;
        Ok(format!("ok {}", hexadecimal(&self.order)))
    }

    /// Calls Bound order.
    fn bound_order(
        &mut self,
        implementation: &Implementation,
        [file, hop_limit, table, work]: [&str; 4],
    ) -> Result<String, Refusal> {
        self.work = unused_bytes(work);
        (implementation.bound_order)(
            &bytes(file),
            decimal(hop_limit),
            &resistances(table),
            &mut self.work,
            unused_list(&mut self.order),
        )?;
        Ok(format!("ok {}", hexadecimal(&self.order)))
    }

    /// Calls Bench.
    fn bench(
        &mut self,
        implementation: &Implementation,
        [text, list, records]: [&str; 3],
    ) -> Result<String, Refusal> {
        self.records = unused_bytes(records);
        let count = (implementation.bench)(&bytes(text), &bytes(list), &mut self.records)?;
        Ok(format!("ok {count} {}", hash(self.records.iter().copied())))
    }

    /// The answer of an accepted Envelope or Simulate.
    fn drawn(&self, Currents { drop, quiet }: Currents) -> String {
        format!("ok {drop} {quiet} {}", hash(self.sheet_bytes()))
    }

    /// The answer of an accepted Search.
    fn found(&self, found: Found) -> String {
        let Found {
            outcome,
            upper,
            lower,
            splits,
            cases,
            quiet,
        } = found;
        let pattern = hexadecimal(&self.pattern);
        let sheet = hash(self.sheet_bytes());
        let store = hash(self.store.iter().copied());
        format!("{outcome} {upper} {lower} {splits} {cases} {quiet} {pattern} {sheet} {store}")
    }

    /// The answer of a refused call, with the buffers that it changed.
    fn refused(&self, Refusal { number, place }: Refusal) -> String {
        let sheet: Vec<u8> = self.sheet_bytes().collect();
        let buffers = [
            ("sheet", &sheet),
            ("pattern", &self.pattern),
            ("work buffer", &self.work),
            ("case store", &self.store),
            ("list", &self.order),
            ("record buffer", &self.records),
        ];
        let changed = buffers
            .into_iter()
            .filter(|(_, bytes)| bytes.iter().any(|&byte| byte != UNUSED))
            .map(|(name, _)| format!(", and the {name} was changed"));
        format!("refused {number} {place}{}", changed.collect::<String>())
    }

    /// The sheet's words as bytes, low byte first.
    fn sheet_bytes(&self) -> impl Iterator<Item = u8> + '_ {
        self.sheet.iter().flat_map(|word| word.to_le_bytes())
    }
}

/// As many words as the decimal number says, each as it is before a call.
fn unused_words(length: &str) -> Vec<Word> {
    vec![Word::from_le_bytes([UNUSED; 8]); decimal(length) as usize]
}

/// As many bytes as the decimal number says, each as it is before a call.
fn unused_bytes(length: &str) -> Vec<u8> {
    vec![UNUSED; decimal(length) as usize]
}

/// Lends the bytes of a list of inputs, each as it is before a call.
fn unused_list(order: &mut Vec<u8>) -> &mut [u8; ORDER_BYTES] {
    *order = vec![UNUSED; ORDER_BYTES];
    order.first_chunk_mut().expect("as many bytes as were lent")
}

/// The bytes as a hexadecimal word.
fn hexadecimal(bytes: &[u8]) -> String {
    bytes.iter().map(|byte| format!("{byte:02x}")).collect()
}

fn decimal(word: &str) -> u64 {
    let number = word.parse();
    number.unwrap_or_else(|_| panic!("no decimal number: {word}"))
}

/// The bytes of a hexadecimal word, `-` standing for none.
fn bytes(word: &str) -> Vec<u8> {
    if word == "-" {
        return Vec::new();
    }
    let (pairs, rest) = word.as_bytes().as_chunks::<2>();
    assert!(rest.is_empty(), "half a byte: {word}");
    pairs
        .iter()
        .map(|&[high, low]| 16 * digit(high) + digit(low))
        .collect()
}

fn digit(character: u8) -> u8 {
    let character = char::from(character);
    let value = character.to_digit(16);
    value.unwrap_or_else(|| panic!("no hexadecimal digit: {character}")) as u8
}

/// The resistances of a hexadecimal word, low byte first.
fn resistances(word: &str) -> Vec<u16> {
    let bytes = bytes(word);
    let (pairs, rest) = bytes.as_chunks::<2>();
    assert!(rest.is_empty(), "half a resistance: {word}");
    pairs.iter().copied().map(u16::from_le_bytes).collect()
}

#[cfg(test)]
mod tests {
    use super::*;
    use crate::LIBRARY;
    use zimgurav::Outcome;

    /// Refuses every call, and changes the last number of every buffer that the call is lent.
    const CHANGING: Implementation = Implementation {
        name: "changing",
        read: |_| Err(REFUSAL),
        envelope: |_, _, _, sheet, work| {
            clear_last(sheet);
            clear_last(work);
            Err(REFUSAL)
        },
        simulate: |_, _, sheet, _, work| {
            clear_last(sheet);
            clear_last(work);
            Err(REFUSAL)
        },
        search: |_, _, _, _, _, _, sheet, pattern, work, store| {
            clear_last(sheet);
            clear_last(pattern);
            clear_last(work);
            clear_last(store);
            Err(REFUSAL)
        },
        cone_order: |_, order| {
            clear_last(order);
            Err(REFUSAL)
        },
        bound_order: |_, _, _, work, order| {
            clear_last(work);
            clear_last(order);
            Err(REFUSAL)
        },
        bench: |_, _, records| {
            clear_last(records);
            Err(REFUSAL)
        },
    };

    const REFUSAL: Refusal = Refusal {
        number: 9,
        place: 3,
    };

    fn clear_last<T: Default>(buffer: &mut [T]) {
        if let Some(last) = buffer.last_mut() {
            *last = T::default();
        }
    }

    #[test]
    fn says_which_buffers_a_refusal_changed() {
        const OF_SEARCH: [&str; 4] = ["sheet", "pattern", "work buffer", "case store"];
        let calls: [(&str, &[&str]); 11] = [
            ("read -", &[]),
            ("envelope - 1 - 5 5", &["sheet", "work buffer"]),
            ("simulate - - ee 5 5", &["sheet", "work buffer"]),
            ("search - 1 - 1 1 5 5 5 5", &OF_SEARCH),
            ("search - 1 - 1 1 0 5 0 0", &["pattern"]),
            ("search - 1 - 1 1 0 0 0 0", &[]),
            ("search - 1 - 1 1 ee 5 5 5 5", &OF_SEARCH),
            ("coneorder -", &["list"]),
            ("boundorder - 1 - 5", &["work buffer", "list"]),
            ("boundorder - 1 - 0", &["list"]),
            ("bench - - 5", &["record buffer"]),
        ];
        for (call, changed) in calls {
            let changed = changed
                .iter()
                .map(|name| format!(", and the {name} was changed"));
            let expected = format!("refused 9 3{}", changed.collect::<String>());
            assert_eq!(answer(&CHANGING, call), expected, "{call}");
        }
    }

    /// Makes a list of two inputs unless the file is empty, and answers a search with its list: the
    /// bytes' number as U, the first byte as L.
    const ECHOING: Implementation = Implementation {
        search: |_, _, _, _, _, list, _, _, _, _| {
            Ok(Found {
                outcome: Outcome::Exact,
                upper: list.len() as u64,
                lower: list.first().map_or(99, |&net| net.into()),
                splits: 0,
                cases: 0,
                quiet: 0,
            })
        },
        cone_order: |file, order| {
            order[0] = *file.first().ok_or(REFUSAL)?;
            Ok(2)
        },
        ..CHANGING
    };

    #[test]
    fn a_search_without_a_list_takes_the_first_makers() {
        for (call, expected) in [
            ("search 07 1 - 1 1 0 0 0 0", "exact 2 7 "),
            ("search - 1 - 1 1 0 0 0 0", "exact 0 99 "),
            ("search 07 1 - 1 1 050403 0 0 0 0", "exact 3 5 "),
            ("search 07 1 - 1 1 - 0 0 0 0", "exact 0 99 "),
        ] {
            let answer = answer(&ECHOING, call);
            assert!(answer.starts_with(expected), "{call}: {answer}");
        }
    }

    /// The list is handed over whole, each byte in two digits.
    #[test]
    fn an_accepted_maker_answers_its_list() {
        let expected = format!("ok 07{}", "ee".repeat(ORDER_BYTES - 1));
        assert_eq!(answer(&ECHOING, "coneorder 07"), expected);
    }

    #[test]
    #[should_panic(expected = "no operation: reads")]
    fn no_operation() {
        answer(&LIBRARY, "reads -");
    }

    #[test]
    #[should_panic(expected = "not 3 arguments: [\"-\", \"-\"]")]
    fn too_few_arguments() {
        answer(&LIBRARY, "bench - -");
    }
}

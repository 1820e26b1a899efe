//! Items of a batch: a stage or a run with its bytes.

#[derive(Clone, Copy, PartialEq, Eq, Debug)]
pub enum Reading {
    Stage,
    Run,
}

impl Reading {
    pub fn word(self) -> &'static str {
        match self {
            Reading::Stage => "stage",
            Reading::Run => "run",
        }
    }
}

#[derive(Clone, PartialEq, Eq, Debug)]
pub struct Item {
    pub reading: Reading,
    pub bytes: Vec<u8>,
}

impl Item {
    pub fn with(&self, bytes: Vec<u8>) -> Item {
        let reading = self.reading;
        Item { reading, bytes }
    }
}

/// The items in the form that the port and every plug-in read: a letter, the length in 4 bytes, low byte first, the bytes.
pub fn batch_of(items: &[Item]) -> Vec<u8> {
    let mut batch = Vec::new();
    for item in items {
        let letter = match item.reading {
            Reading::Stage => b's',
            Reading::Run => b'r',
        };
        let length = u32::try_from(item.bytes.len()).expect("an item is shorter than 4 GiB");
        batch.push(letter);
        batch.extend_from_slice(&length.to_le_bytes());
        batch.extend_from_slice(&item.bytes);
    }
    batch
}

/// The items of a batch, or the number of the first that is none.
pub fn items_of(mut batch: &[u8]) -> Result<Vec<Item>, usize> {
    let mut items = Vec::new();
    while !batch.is_empty() {
        let (item, rest) = first_item(batch).ok_or(items.len())?;
        items.push(item);
        batch = rest;
    }
    Ok(items)
}

fn first_item(batch: &[u8]) -> Option<(Item, &[u8])> {
    let (head, rest) = batch.split_first_chunk::<5>()?;
    let [letter, length @ ..] = *head;
    let reading = match letter {
        b's' => Reading::Stage,
        b'r' => Reading::Run,
        _ => return None,
    };
    let (bytes, rest) = rest.split_at_checked(u32::from_le_bytes(length) as usize)?;
    let bytes = bytes.to_vec();
    Some((Item { reading, bytes }, rest))
}

#[cfg(test)]
mod tests {
    use super::*;

    #[test]
    fn a_batch_is_read_back() {
        let stage = Item {
            reading: Reading::Stage,
            bytes: b"<a/>".to_vec(),
        };
        let run = Item {
            reading: Reading::Run,
            bytes: vec![0xFF; 300],
        };
        let items = vec![stage.clone(), run, stage.with(Vec::new())];
        assert_eq!(items_of(&batch_of(&items)), Ok(items));
    }

    #[test]
    fn what_is_no_item() {
        assert_eq!(items_of(b"x"), Err(0));
        assert_eq!(items_of(b"s\0\0\0\0r\x01\0\0\0"), Err(1));
    }
}

//! The record of a text.

use crate::view::{
    Cells, Character, CharacterNumber, Characters, DataType, Symbols, Taxa, Taxon, TaxonNumber,
    View,
};
use crate::{Refusal, TEXT_LIMIT, lookup, write_into};

/// What a text was read as: lines `key=value`, each ended by LF. It begins with the data type and
/// the counts, then has each taxon's name and cells, then each character's label, type and states.
/// What it says is handed out without a copy.
///
#[doc = example!()]
/// # use inputs::example::{RECORD, TEXT};
/// let record = nexus::read(TEXT.as_bytes())?;
/// assert_eq!(record.as_bytes(), RECORD.as_bytes());
/// # Ok::<(), nexus::Refusal>(())
/// ```
#[derive(Clone, Debug, Eq, PartialEq)]
pub struct Record {
    pub(crate) bytes: Vec<u8>,
}

impl Record {
    /// The record that has these bytes, such as were read before; 31 where they are no record.
    ///
    #[doc = example!()]
    /// # use inputs::example::RECORD;
    /// use nexus::{Record, Refusal};
    /// let record = Record::from_bytes(RECORD.into())?;
    /// let refusal = Record::from_bytes(b"taxa=2".to_vec()).expect_err("no record");
    /// assert_eq!(refusal.number, Refusal::NO_RECORD);
    /// # Ok::<(), nexus::Refusal>(())
    /// ```
    pub fn from_bytes(bytes: Vec<u8>) -> Result<Self, Refusal> {
        View::of(&bytes)?;
        Ok(Self { bytes })
    }

    /// The record's written form: a text whose record is this one; 32 where it is too long to be
    /// read.
    ///
    #[doc = example!()]
    /// # use inputs::example::{FORM, RECORD};
    /// let record = nexus::Record::from_bytes(RECORD.into())?;
    /// assert_eq!(record.write()?, FORM.as_bytes());
    /// # Ok::<(), nexus::Refusal>(())
    /// ```
    pub fn write(&self) -> Result<Vec<u8>, Refusal> {
        let mut buffer = vec![0; TEXT_LIMIT.min(longest_form(&self.bytes))];
        let length = write_into(&self.bytes, &mut buffer)?;
        buffer.truncate(length);
        Ok(buffer)
    }

    /// The cells of the taxon with this name, as they stand in the record; 33 where none has it. The
    /// case of ASCII letters does not matter.
    ///
    #[doc = example!()]
    /// # use inputs::example::RECORD;
    /// let record = nexus::Record::from_bytes(RECORD.into())?;
    /// assert_eq!(record.cells(b"A B")?, b"0 u0.1 m");
    /// # Ok::<(), nexus::Refusal>(())
    /// ```
    pub fn cells(&self, name: &[u8]) -> Result<&[u8], Refusal> {
        lookup(&self.bytes, name)
    }

    /// The record's bytes.
    ///
    #[doc = example!()]
    /// # use inputs::example::RECORD;
    /// let record = nexus::Record::from_bytes(RECORD.into())?;
    /// assert!(record.as_bytes().starts_with(b"datatype=STANDARD\n"));
    /// # Ok::<(), nexus::Refusal>(())
    /// ```
    pub fn as_bytes(&self) -> &[u8] {
        &self.bytes
    }

    /// The record's bytes, to keep.
    ///
    #[doc = example!()]
    /// # use inputs::example::RECORD;
    /// let record = nexus::Record::from_bytes(RECORD.into())?;
    /// assert_eq!(record.into_bytes(), RECORD.as_bytes());
    /// # Ok::<(), nexus::Refusal>(())
    /// ```
    pub fn into_bytes(self) -> Vec<u8> {
        self.bytes
    }

    /// The view of it, which has all that the methods below hand out.
    ///
    #[doc = example!()]
    /// # use inputs::example::RECORD;
    /// let record = nexus::Record::from_bytes(RECORD.into())?;
    /// assert_eq!(record.view().taxon_count(), 2);
    /// # Ok::<(), nexus::Refusal>(())
    /// ```
    pub fn view(&self) -> View<'_> {
        View::judged(&self.bytes)
    }

    /// The kind of its data: see [`View::data_type`].
    ///
    #[doc = example!()]
    /// # use inputs::example::RECORD;
    /// let record = nexus::Record::from_bytes(RECORD.into())?;
    /// assert_eq!(record.data_type(), nexus::DataType::Standard);
    /// # Ok::<(), nexus::Refusal>(())
    /// ```
    pub fn data_type(&self) -> DataType {
        self.view().data_type()
    }

    /// Its symbols: see [`View::symbols`].
    ///
    #[doc = example!()]
    /// # use inputs::example::RECORD;
    /// let record = nexus::Record::from_bytes(RECORD.into())?;
    /// assert_eq!(record.symbols().as_str(), "01");
    /// # Ok::<(), nexus::Refusal>(())
    /// ```
    pub fn symbols(&self) -> Symbols<'_> {
        self.view().symbols()
    }

    /// How many taxa it has: see [`View::taxon_count`].
    ///
    #[doc = example!()]
    /// # use inputs::example::RECORD;
    /// let record = nexus::Record::from_bytes(RECORD.into())?;
    /// assert_eq!(record.taxon_count(), 2);
    /// # Ok::<(), nexus::Refusal>(())
    /// ```
    pub fn taxon_count(&self) -> usize {
        self.view().taxon_count()
    }

    /// How many characters it has: see [`View::character_count`].
    ///
    #[doc = example!()]
    /// # use inputs::example::RECORD;
    /// let record = nexus::Record::from_bytes(RECORD.into())?;
    /// assert_eq!(record.character_count(), 3);
    /// # Ok::<(), nexus::Refusal>(())
    /// ```
    pub fn character_count(&self) -> usize {
        self.view().character_count()
    }

    /// Its taxa: see [`View::taxa`].
    ///
    #[doc = example!()]
    /// # use inputs::example::RECORD;
    /// let record = nexus::Record::from_bytes(RECORD.into())?;
    /// assert!(record.taxa().all(|taxon| taxon.cells().len() == 3));
    /// # Ok::<(), nexus::Refusal>(())
    /// ```
    pub fn taxa(&self) -> Taxa<'_> {
        self.view().taxa()
    }

    /// The taxon with this number: see [`View::taxon`].
    ///
    #[doc = example!()]
    /// # use inputs::example::RECORD;
    /// use nexus::TaxonNumber;
    /// let record = nexus::Record::from_bytes(RECORD.into())?;
    /// let second = TaxonNumber::new(2).and_then(|number| record.taxon(number));
    /// assert!(second.is_some_and(|taxon| taxon.name() == "C"));
    /// # Ok::<(), nexus::Refusal>(())
    /// ```
    pub fn taxon(&self, number: TaxonNumber) -> Option<Taxon<'_>> {
        self.view().taxon(number)
    }

    /// The cells of the taxon with this name: see [`View::find`].
    ///
    #[doc = example!()]
    /// # use inputs::example::RECORD;
    /// use nexus::{Record, Refusal};
    /// let record = Record::from_bytes(RECORD.into())?;
    /// assert_eq!(record.find(b"c")?.len(), 3);
    /// assert_eq!(record.find(b"d").map_err(|refusal| refusal.number), Err(Refusal::NO_NAME));
    /// # Ok::<(), nexus::Refusal>(())
    /// ```
    pub fn find(&self, name: &[u8]) -> Result<Cells<'_>, Refusal> {
        self.view().find(name)
    }

    /// Its characters: see [`View::characters`].
    ///
    #[doc = example!()]
    /// # use inputs::example::RECORD;
    /// let record = nexus::Record::from_bytes(RECORD.into())?;
    /// let numbers = record.characters().map(|character| character.number().get());
    /// assert!(numbers.eq([1, 2, 3]));
    /// # Ok::<(), nexus::Refusal>(())
    /// ```
    pub fn characters(&self) -> Characters<'_> {
        self.view().characters()
    }

    /// The character with this number: see [`View::character`].
    ///
    #[doc = example!()]
    /// # use inputs::example::RECORD;
    /// use nexus::CharacterNumber;
    /// let record = nexus::Record::from_bytes(RECORD.into())?;
    /// assert!(record.character(CharacterNumber::FIRST).is_some());
    /// # Ok::<(), nexus::Refusal>(())
    /// ```
    pub fn character(&self, number: CharacterNumber) -> Option<Character<'_>> {
        self.view().character(number)
    }
}

/// No form of a record is longer. A name's line gives at most twice its bytes, where each is a quote;
/// a row's cells at most twice theirs; a character's lines fewer than they have but for the quotes
/// of its labels; and what is left is shorter than 256.
fn longest_form(record: &[u8]) -> usize {
    2 * record.len() + 256
}

//! The worked example of document 01.

pub const TEXT: &str = "#NEXUS
BEGIN DATA;
DIMENSIONS NTAX=2 NCHAR=3;
MATRIX
a_b 0{01}?
C 1(1)0;
END;
";

/// The example's record.
pub const RECORD: &str = "datatype=STANDARD
taxa=2
characters=3
symbols=01
name=a b
cells=0 u0.1 m
name=C
cells=1 p1 0
character=1
label=
order=UNORD
states=0
character=2
label=
order=UNORD
states=0
character=3
label=
order=UNORD
states=0
";

/// Its written form.
pub const FORM: &str = "#NEXUS
BEGIN DATA;
DIMENSIONS NTAX=2 NCHAR=3;
FORMAT DATATYPE=STANDARD RESPECTCASE MISSING=! SYMBOLS=\"01\";
MATRIX
'a_b' 0{01}!
'C' 1(1)0
;
END;
";

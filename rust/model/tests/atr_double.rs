//! The rules on an ATR image of double density.

use model::image::Kind;

mod rules;

const KIND: Kind = Kind::AtrDouble;

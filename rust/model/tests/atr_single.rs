//! The rules on an ATR image of single density.

use model::image::Kind;

mod rules;

const KIND: Kind = Kind::AtrSingle;

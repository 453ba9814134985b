//! The rules on a raw image.

use model::image::Kind;

mod rules;

const KIND: Kind = Kind::Raw;

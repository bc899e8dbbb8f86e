// Stand-in for the module that the reference leaves out: the one struct that it names, and a way to a function that only its own crate can call.
#[derive(Debug, Clone, Copy, PartialEq)]
pub struct SecondPlusOneMarker {
    pub bar_index: usize,
    pub price: f64,
    pub is_buy: bool,
    pub order: u32,
}

pub fn end_point(big: usize, bigs: &[(usize, usize, bool)], segments: &[(usize, usize, bool)], strokes: &[crate::Stroke]) -> Option<(usize, f64)> {
    crate::resolve_sup_end_point(big, bigs, segments, strokes)
}

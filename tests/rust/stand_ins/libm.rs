// Stands in for the crate libm: the same functions by Rust's own f64 methods.

pub fn floor(x: f64) -> f64 {
    x.floor()
}
pub fn ceil(x: f64) -> f64 {
    x.ceil()
}
pub fn trunc(x: f64) -> f64 {
    x.trunc()
}
pub fn round(x: f64) -> f64 {
    x.round()
}
pub fn fabs(x: f64) -> f64 {
    x.abs()
}
pub fn fmin(x: f64, y: f64) -> f64 {
    x.min(y)
}

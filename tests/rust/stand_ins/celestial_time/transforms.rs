// lib.rs names this module; its file was not supplied and no call needs it.
// It holds the type through which the modules' private functions are opened:
// each opener beside a supplied file adds functions to this type.

pub struct Opened;

// lib.rs names this module; its file was not supplied and no call needs it.

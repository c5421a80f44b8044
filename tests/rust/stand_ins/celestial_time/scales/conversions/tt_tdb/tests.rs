// The supplied file names this module under cfg(test); nothing is opened here.

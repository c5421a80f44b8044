"""The version of the package: that of the library, CT_VERSION of include/celestial_time.h, to which the tests hold it."""
__version__ = "2.2.0"

"""The version of the package, which is that of the library that it stands on."""

VERSION = "0.1.0"

"""The version, which is said here alone."""

VERSION = "1.0.0"

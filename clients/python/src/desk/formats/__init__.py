"""The texts of rule and pattern files, as far as the program doesn't read them itself."""

"""The house's rules of style that a program can check, one file a rule."""

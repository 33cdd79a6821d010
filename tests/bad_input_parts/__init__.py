"""What tests/bad-input is made of: for each kind of input a reader of its format, and the cases that are run on it."""

"""What tests/soak is made of: a plain model of the dictionary, the peers that ask for it, and the server they ask."""

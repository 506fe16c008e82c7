"""What tools/why and tools/picture are made of. It claims nothing of its own: what it says of a policy the program said."""

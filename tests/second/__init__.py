"""The second program: folding, membership, bases and files, written from the definitions alone."""

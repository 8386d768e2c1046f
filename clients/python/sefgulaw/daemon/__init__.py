"""One process for each tree, which keeps the tree told and answers the front ends."""

"""What tools/checks runs: of each tool what it must give, worked out from the rules, and what it must refuse."""

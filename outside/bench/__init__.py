"""What the program costs, beside others and beside plain rates. bench/ has a command for each module."""

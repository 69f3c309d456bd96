"""What is right, worked out in Python: lines, rules, machines and hosts. Shares nothing with the programs."""

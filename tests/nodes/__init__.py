"""What the tests of the program rexnode share: bytes, journals and stops of the machine, the model's nodes, processes, services, and planted bugs."""

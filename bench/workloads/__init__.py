"""The inputs of the workloads that bench/compare.py times. Each is made of a seed and the number of a round, which is the stream of
the numbers that are drawn for it."""

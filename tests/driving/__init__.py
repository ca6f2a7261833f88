"""Drives over the laboratory (docs/LAB.md), in an order that a seed settles: whole arrays, and stores of one thread."""

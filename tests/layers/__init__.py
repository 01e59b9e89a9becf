"""Tests of the lower layers, over the program that answers lines about them."""

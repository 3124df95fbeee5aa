"""Waveforms and tables of the values that the program prints."""

"""Reads designs in Verilog and in yosys's other input formats, which yosys translates into AIGER
files."""

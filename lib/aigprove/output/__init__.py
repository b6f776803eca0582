"""What aigprove prints and writes: signals, tables, value change dumps and evidence."""

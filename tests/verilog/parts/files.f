tests/verilog/parts/add_one.v

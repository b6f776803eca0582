// The files of a design, as simulators take them.
+incdir+tests/verilog/limits +define+MORE=1
tests/verilog/counter.v  # and its part
-f tests/verilog/parts/files.f

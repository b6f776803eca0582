# Two registers of one bit, as synthesis makes them: the second one takes what the first one has, where it may, and both have a reset.
module \cells
  wire input 1 \clk
  wire input 2 \rst
  wire input 3 \en
  wire input 4 \d
  wire \first
  wire \second
  wire \both
  cell $_DFF_PP0_ \low
    connect \C \clk
    connect \D \d
    connect \R \rst
    connect \Q \first
  end
  cell $_DFFE_PP0P_ \high
    connect \C \clk
    connect \D \first
    connect \E \en
    connect \R \rst
    connect \Q \second
  end
  cell $_NAND_ \apart
    connect \A \first
    connect \B \second
    connect \Y \both
  end
  cell $assert \never
    connect \A \both
    connect \EN 1'1
  end
end

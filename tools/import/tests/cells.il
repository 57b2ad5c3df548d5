# Kinds of cells that yosys makes of no Verilog by itself.
module \cells
  wire width 4 input 1 \a
  wire width 4 input 2 \b
  wire width 2 input 3 \s
  wire width 1 input 4 \en
  wire width 1 input 5 \clk
  wire width 1 input 6 \rst
  wire width 1 input 7 \ld
  wire width 4 input 8 \set
  wire width 4 input 9 \clr
  wire width 6 output 10 \y_pos
  wire width 6 output 11 \y_concat
  wire width 2 output 12 \y_slice
  wire width 4 output 13 \y_tribuf
  wire width 2 output 14 \y_bmux
  wire width 8 output 15 \y_demux
  wire width 4 output 16 \y_shift
  wire width 4 output 17 \y_dffe
  wire width 4 output 18 \y_adffe
  wire width 4 output 19 \y_aldffe
  wire width 4 output 20 \y_sdff
  wire width 4 output 21 \y_sdffe
  wire width 4 output 22 \y_sdffce
  wire width 4 output 23 \y_dffsr
  wire width 4 output 24 \y_dffsre
  wire width 4 output 25 \y_adlatch
  wire width 4 output 26 \y_dlatchsr
  wire width 4 output 27 \y_sr
  cell $pos \c_pos
    parameter \A_SIGNED 1
    parameter \A_WIDTH 4
    parameter \Y_WIDTH 6
    connect \A \a
    connect \Y \y_pos
  end
  cell $concat \c_concat
    parameter \A_WIDTH 4
    parameter \B_WIDTH 2
    connect \A \a
    connect \B \s
    connect \Y \y_concat
  end
  cell $slice \c_slice
    parameter \OFFSET 1
    parameter \A_WIDTH 4
    parameter \Y_WIDTH 2
    connect \A \a
    connect \Y \y_slice
  end
  cell $tribuf \c_tribuf
    parameter \WIDTH 4
    connect \A \a
    connect \EN \en
    connect \Y \y_tribuf
  end
  cell $bmux \c_bmux
    parameter \WIDTH 2
    parameter \S_WIDTH 2
    connect \A { \b \a }
    connect \S \s
    connect \Y \y_bmux
  end
  cell $demux \c_demux
    parameter \WIDTH 2
    parameter \S_WIDTH 2
    connect \A \a [1:0]
    connect \S \s
    connect \Y \y_demux
  end
  cell $shift \c_shift
    parameter \A_SIGNED 0
    parameter \B_SIGNED 1
    parameter \A_WIDTH 4
    parameter \B_WIDTH 4
    parameter \Y_WIDTH 4
    connect \A \a
    connect \B \b
    connect \Y \y_shift
  end
  cell $dffe \c_dffe
    parameter \WIDTH 4
    parameter \CLK_POLARITY 1
    parameter \EN_POLARITY 0
    connect \CLK \clk
    connect \D \a
    connect \EN \en
    connect \Q \y_dffe
  end
  cell $adffe \c_adffe
    parameter \WIDTH 4
    parameter \CLK_POLARITY 1
    parameter \EN_POLARITY 1
    parameter \ARST_POLARITY 0
    parameter \ARST_VALUE 4'0110
    connect \CLK \clk
    connect \D \a
    connect \EN \en
    connect \ARST \rst
    connect \Q \y_adffe
  end
  cell $aldffe \c_aldffe
    parameter \WIDTH 4
    parameter \CLK_POLARITY 1
    parameter \EN_POLARITY 1
    parameter \ALOAD_POLARITY 1
    connect \CLK \clk
    connect \D \a
    connect \EN \en
    connect \ALOAD \ld
    connect \AD \b
    connect \Q \y_aldffe
  end
  cell $sdff \c_sdff
    parameter \WIDTH 4
    parameter \CLK_POLARITY 1
    parameter \SRST_POLARITY 1
    parameter \SRST_VALUE 4'0110
    connect \CLK \clk
    connect \D \a
    connect \SRST \rst
    connect \Q \y_sdff
  end
  cell $sdffe \c_sdffe
    parameter \WIDTH 4
    parameter \CLK_POLARITY 1
    parameter \SRST_POLARITY 1
    parameter \SRST_VALUE 4'0110
    parameter \EN_POLARITY 1
    connect \CLK \clk
    connect \D \a
    connect \SRST \rst
    connect \EN \en
    connect \Q \y_sdffe
  end
  cell $sdffce \c_sdffce
    parameter \WIDTH 4
    parameter \CLK_POLARITY 1
    parameter \SRST_POLARITY 1
    parameter \SRST_VALUE 4'0110
    parameter \EN_POLARITY 1
    connect \CLK \clk
    connect \D \a
    connect \SRST \rst
    connect \EN \en
    connect \Q \y_sdffce
  end
  cell $dffsr \c_dffsr
    parameter \WIDTH 4
    parameter \CLK_POLARITY 1
    parameter \SET_POLARITY 1
    parameter \CLR_POLARITY 0
    connect \CLK \clk
    connect \D \a
    connect \SET { \set [3:2] \ld \ld }
    connect \CLR { \rst \rst \rst \rst }
    connect \Q \y_dffsr
  end
  cell $dffsre \c_dffsre
    parameter \WIDTH 4
    parameter \CLK_POLARITY 1
    parameter \SET_POLARITY 1
    parameter \CLR_POLARITY 1
    parameter \EN_POLARITY 1
    connect \CLK \clk
    connect \D \a
    connect \EN \en
    connect \SET { \ld \ld \ld \ld }
    connect \CLR 4'0000
    connect \Q \y_dffsre
  end
  cell $adlatch \c_adlatch
    parameter \WIDTH 4
    parameter \EN_POLARITY 1
    parameter \ARST_POLARITY 1
    parameter \ARST_VALUE 4'0110
    connect \EN \en
    connect \ARST \rst
    connect \D \a
    connect \Q \y_adlatch
  end
  cell $dlatchsr \c_dlatchsr
    parameter \WIDTH 4
    parameter \EN_POLARITY 1
    parameter \SET_POLARITY 1
    parameter \CLR_POLARITY 1
    connect \EN \en
    connect \SET { \ld \ld \ld \ld }
    connect \CLR { \rst \rst \rst \rst }
    connect \D \a
    connect \Q \y_dlatchsr
  end
  cell $sr \c_sr
    parameter \WIDTH 4
    parameter \SET_POLARITY 1
    parameter \CLR_POLARITY 0
    connect \SET \set
    connect \CLR \clr
    connect \Q \y_sr
  end
end

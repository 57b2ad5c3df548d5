"""Names of the printed text: plain identifiers that are no keywords, each given once."""
from __future__ import annotations

import re
from typing import Iterable

# The keywords of IEEE 1800-2017, annex B: the text is read by other simulators too.
KEYWORDS = frozenset("""
    accept_on alias always always_comb always_ff always_latch and assert assign assume automatic before begin bind bins
    binsof bit break buf bufif0 bufif1 byte case casex casez cell chandle checker class clocking cmos config const
    constraint context continue cover covergroup coverpoint cross deassign default defparam design disable dist do edge
    else end endcase endchecker endclass endclocking endconfig endfunction endgenerate endgroup endinterface endmodule
    endpackage endprimitive endprogram endproperty endsequence endspecify endtable endtask enum event eventually expect
    export extends extern final first_match for force foreach forever fork forkjoin function generate genvar global
    highz0 highz1 if iff ifnone ignore_bins illegal_bins implements implies import incdir include initial inout input
    inside instance int integer interconnect interface intersect join join_any join_none large let liblist library local
    localparam logic longint macromodule matches medium modport module nand negedge nettype new nexttime nmos nor
    noshowcancelled not notif0 notif1 null or output package packed parameter pmos posedge primitive priority program
    property protected pull0 pull1 pulldown pullup pulsestyle_ondetect pulsestyle_onevent pure rand randc randcase
    randsequence rcmos real realtime ref reg reject_on release repeat restrict return rnmos rpmos rtran rtranif0
    rtranif1 s_always s_eventually s_nexttime s_until s_until_with scalared sequence shortint shortreal showcancelled
    signed small soft solve specify specparam static string strong strong0 strong1 struct super supply0 supply1
    sync_accept_on sync_reject_on table tagged task this throughout time timeprecision timeunit tran tranif0 tranif1 tri
    tri0 tri1 triand trior trireg type typedef union unique unique0 unsigned until until_with untyped use uwire var
    vectored virtual void wait wait_order wand weak weak0 weak1 while wildcard wire with within wor xnor xor""".split())


class Names:
    """Gives each name of a space once."""

    def __init__(self, taken: Iterable[str] = ()) -> None:
        self._taken = set(KEYWORDS).union(taken)
        self._counts: dict[str, int] = {}

    def take(self, wanted: str) -> str:
        """A new name: the one that is wanted, or one that is alike where it is taken or no plain name."""
        plain = plain_name(wanted)
        name, count = plain, self._counts.get(plain, 1)
        while name in self._taken:
            count += 1
            name = f"{plain}_{count}"
        self._counts[plain] = count
        self._taken.add(name)
        return name


def plain_name(wanted: str) -> str:
    """The name without what a plain identifier can not have."""
    if re.fullmatch(r"[A-Za-z_][\w$]*", wanted, re.ASCII):
        return wanted
    plain = re.sub(r"[^A-Za-z0-9_$]+", "_", wanted).strip("_")
    return plain if re.match(r"[A-Za-z_]", plain) else "n" + plain

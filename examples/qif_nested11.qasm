; qif_nested11 - a qif inside the branch of coin 1 of another qif.
;
;   qif[r1] |0> -> X[r3]
;           |1> -> qif[r2] |0> -> X[r4]   |1> -> X[r5]; X[r6]   fiq
;   fiq
;
; Inner qif, words between qif and fiq:
;   coin 0: b0, one gate, b1, b3              4 words    w = 1 in node 4
;   coin 1: b0, b2, two gates, b3             5 words    w = 0 in node 5
; so the inner qif takes 1 + 5 + 1 = 7 turns with either coin r2.
; Outer qif, turns between qif and fiq:
;   coin 0: a0, one gate, a1, a3              4 turns    w = 6 in node 2
;   coin 1: a0, a2, the inner qif (7), a3    10 turns    w = 0 in node 3
; so with any coins the whole program makes 1 + 1 + 10 + 1 = 13 turns and ends
; at node 7.
;
; The assembler makes the table, from node 1 on, and it is the one that is drawn by
; hand in qif_nested0 and qif_nested10. The inner qif starts at node 3 and its fiq
; leads to node 6. That node, not 3, is the last child of node 1 for coin 1: lc1
; and fc1 differ. w is read by a qif from the first child, so the wait of an outer
; branch stands in nodes 2 and 3.
;
; Here r1 = 1, r2 = 1: no wait at all. Result: r5 = r6 = 1.
; The exercises qif_nested0, qif_nested10 and qif_nested11 differ in the coins only.

        start
        qif  r1
a0:     bnz  r1, a2           ; coin 1 goes to a2
        uni  x, r3            ; the branch of coin 0
a1:     bra  a3
a2:     bra  from a0          ; the branch of coin 1
        qif  r2
b0:     bnz  r2, b2
        uni  x, r4
b1:     bra  b3
b2:     bra  from b0
        uni  x, r5
        uni  x, r6
b3:     bez  r2, from b1
        fiq  r2
a3:     bez  r1, from a1      ; coin 0 lands here
        fiq  r1
        finish

        .reg  r1 1            ; the outer coin
        .reg  r2 1            ; the inner coin
        .table make

; mux - the quantum multiplexor of document 003, compiled, for n = 2.
;
;   Pmain(n) <= P(n, 0)
;   P(k, x)  <= if k = 0 then Q[x]
;               else qif[q[k]] |0> -> P(k - 1, 2x)   |1> -> P(k - 1, 2x + 1) fiq
;   Q[0] <= skip   Q[1] <= X[t0]   Q[2] <= X[t1]   Q[3] <= X[t0]; X[t1]
;
; so x = 2 q[2] + q[1] is copied into the target qubits t1 and t0. Here
; q[2] = 1 and q[1] = 0: x = 2, t1 = 1, t0 = 0. Other coins: the words at &q.
;
; The words are those of document 003, Figure 18; line numbers there are given
; for every block. What had to be changed:
;   - A landing xors the offset of the jump, written "from LABEL". The figure
;     names the label of the jump, but the distances there and back differ in
;     sign, and their xor is not 0.
;   - Line 8 calls Pmain with one bra; the return would find -D xor D in br. The
;     call is written as in Figure 10, like the calls of P.
;   - There is no subtraction among the operations of arib: k - 1 is k + (-1).
;     (Line 391 prints * for it.)
;   - ldr(r1,@k), printed in lines 176 to 307, is ld(r1,@k).
;   - x1, x0 and k0 are uncomputed inside the branch k not 0, before l1: with
;     k = 0 they were not computed and nothing was pushed.
;   - Before finish t0 and t1 are loaded into r11 and r12 to be seen.
;
; The assembler makes the table (Figure 19, here for n = 2):
;   node 1   the outer qif: its children are 2 and 3, and 10 is next
;   node 2   q[2] = 0, the inner qif: its children are 4 and 5, and 6 is next
;   node 3   q[2] = 1, the inner qif: its children are 7 and 8, and 9 is next
;
; Waits. Outside Q[x] the two branches of the qif have equally many words. One
; gate takes 5 words. Q[0] has 0 gates, Q[1] 1, Q[2] 1, Q[3] 2, so
;   inner qif after q[2] = 0:  w = 5 in node 4 (Q[0]),  w = 0 in node 5 (Q[1])
;   inner qif after q[2] = 1:  w = 5 in node 7 (Q[2]),  w = 0 in node 8 (Q[3])
;   outer qif: the branch of 0 now takes 1 gate, that of 1 takes 2:
;              w = 5 in node 2, w = 0 in node 3
; and for all four choices of the coins 736 turns are made: main 32, Pmain 72,
; P(2, ..) and P(1, ..) 258 each, P(0, ..) 106, gates and waits 10.
;
; At the end all data words and sp are as at the beginning, all other registers
; but pc and r12 are 0, and qifv is node 10.

        ; main program (lines 1-15)
        start
        ld   r1, @n           ; load n
        ldr  r2, r1
        addi sp, 1            ; push n
        ldr  r2, sp
        ldr  r2, r1           ; store n
        ld   r1, @n
        ld   r1, @Pmain.ent   ; copy Pmain.ent
        fetr r2, r1
        ld   r1, @Pmain.ent
        sub  r2, pc           ; compute br
        subi r2, 2
        swbr r2               ; bra(Pmain.ent)
        addi r2, 2            ; compute Pmain.ent
        sub  r2, pc
        neg  r2
        ld   r1, @Pmain.ent   ; uncopy Pmain.ent
        fetr r2, r1
        ld   r1, @Pmain.ent
        ld   r1, @n           ; load n
        ldr  r2, r1
        ldr  r2, sp           ; pop n
        subi sp, 1
        ldr  r2, r1           ; store n
        ld   r1, @n
        ; addition: the two target words into r11 and r12, to be seen in the output
        ld   r1, @t0
        ldr  r11, r1
        ld   r1, @t0
        ld   r1, @t1
        ldr  r12, r1
        ld   r1, @t1
        finish

        ; Pmain(n) <= P(n, 0) (lines 16-85)
Pmain.beg:
        bra  from Pmain.end
Pmain.ent:
        swbr ro
        neg  ro
        ld   r1, @y3          ; load y3
        ldr  r2, r1
        ldr  r2, sp           ; pop y3
        subi sp, 1
        ld   r3, @n           ; load n
        ldr  r4, r3
        swap r4, r2           ; swap(n, y3)
        addi sp, 1            ; push y3
        ldr  r2, sp
        ldr  r4, r3           ; store n
        ld   r3, @n
        ldr  r2, r1           ; store y3
        ld   r1, @y3
        addi sp, 1            ; push ro
        ldr  ro, sp
        ld   r1, @n           ; load n
        ldr  r2, r1
        addi sp, 1            ; push n
        ldr  r2, sp
        ldr  r2, r1           ; store n
        ld   r1, @n
        ld   r1, @z           ; load z
        ldr  r2, r1
        addi sp, 1            ; push z
        ldr  r2, sp
        ldr  r2, r1           ; store z
        ld   r1, @z
        ld   r1, @P.ent       ; copy P.ent
        fetr r2, r1
        ld   r1, @P.ent
        sub  r2, pc           ; compute br
        subi r2, 2
        swbr r2               ; bra(P.ent)
        addi r2, 2            ; compute P.ent
        sub  r2, pc
        neg  r2
        ld   r1, @P.ent       ; uncopy P.ent
        fetr r2, r1
        ld   r1, @P.ent
        ld   r1, @z           ; load z
        ldr  r2, r1
        ldr  r2, sp           ; pop z
        subi sp, 1
        ldr  r2, r1           ; store z
        ld   r1, @z
        ld   r1, @n           ; load n
        ldr  r2, r1
        ldr  r2, sp           ; pop n
        subi sp, 1
        ldr  r2, r1           ; store n
        ld   r1, @n
        ldr  ro, sp           ; pop ro
        subi sp, 1
        ld   r1, @y3          ; load y3
        ldr  r2, r1
        ldr  r2, sp           ; pop y3
        subi sp, 1
        ld   r3, @n           ; load n
        ldr  r4, r3
        swap r4, r2           ; swap(n, y3)
        addi sp, 1            ; push y3
        ldr  r2, sp
        ldr  r4, r3           ; store n
        ld   r3, @n
        ldr  r2, r1           ; store y3
        ld   r1, @y3
Pmain.end:
        bra  Pmain.beg

        ; P(k, x), entry (lines 86-116)
P.beg:  bra  from P.end
P.ent:  swbr ro
        neg  ro
        ld   r1, @y2          ; load y2
        ldr  r2, r1
        ldr  r2, sp           ; pop y2
        subi sp, 1
        ld   r3, @y1          ; load y1
        ldr  r4, r3
        ldr  r4, sp           ; pop y1
        subi sp, 1
        ld   r5, @k           ; load k
        ldr  r6, r5
        ld   r7, @x           ; load x
        ldr  r8, r7
        swap r6, r4           ; swap(k, y1)
        swap r8, r2           ; swap(x, y2)
        addi sp, 1            ; push y1
        ldr  r4, sp
        addi sp, 1            ; push y2
        ldr  r2, sp
        ldr  r2, r1           ; store y2
        ld   r1, @y2
        ldr  r4, r3           ; store y1
        ld   r3, @y1
        ldr  r6, r5           ; store k
        ld   r5, @k
        ldr  r8, r7           ; store x
        ld   r7, @x
        addi sp, 1            ; push ro
        ldr  ro, sp

        ; if k is not 0 (lines 117-121)
        ld   r1, @k           ; load k
        ldr  r2, r1
l0:     bez  r2, l2
        ldr  r2, r1           ; store k
        ld   r1, @k

        ; k0 := k - 1 (lines 122-139); r5 is -1
        ld   r1, @w1          ; load w1
        ldr  r2, r1
        ld   r3, @k           ; load k
        ldr  r4, r3
        subi r5, 1            ; prepare
        arib +, r2, r4, r5
        ldr  r4, r3           ; store k
        ld   r3, @k
        addi r5, 1            ; clear
        ld   r3, @k0          ; load k0
        ldr  r4, r3
        swap r4, r2           ; swap(k0, w1)
        ldr  r4, r3           ; store k0
        ld   r3, @k0
        addi sp, 1            ; push w1
        ldr  r2, sp
        ldr  r2, r1           ; store w1
        ld   r1, @w1
        ; x0 := 2 x (lines 140-157)
        ld   r1, @w2          ; load w2
        ldr  r2, r1
        ld   r3, @x           ; load x
        ldr  r4, r3
        xori r5, 2            ; prepare
        arib *, r2, r4, r5
        ldr  r4, r3           ; store x
        ld   r3, @x
        xori r5, 2            ; clear
        ld   r3, @x0          ; load x0
        ldr  r4, r3
        swap r4, r2           ; swap(x0, w2)
        ldr  r4, r3           ; store x0
        ld   r3, @x0
        addi sp, 1            ; push w2
        ldr  r2, sp
        ldr  r2, r1           ; store w2
        ld   r1, @w2
        ; x1 := x0 + 1 (lines 158-175)
        ld   r1, @w3          ; load w3
        ldr  r2, r1
        ld   r3, @x0          ; load x0
        ldr  r4, r3
        xori r5, 1            ; prepare
        arib +, r2, r4, r5
        ldr  r4, r3           ; store x0
        ld   r3, @x0
        xori r5, 1            ; clear
        ld   r3, @x1          ; load x1
        ldr  r4, r3
        swap r4, r2           ; swap(x1, w3)
        ldr  r4, r3           ; store x1
        ld   r3, @x1
        addi sp, 1            ; push w3
        ldr  r2, sp
        ldr  r2, r1           ; store w3
        ld   r1, @w3

        ; qif(q[k]) (lines 176-185)
        ld   r1, @k           ; load q[k] into r4
        ldr  r2, r1
        ld   r3, @q
        add  r3, r2
        ldr  r4, r3
        sub  r3, r2
        ld   r3, @q
        ldr  r2, r1
        ld   r1, @k
        qif  r4

        ; |0> -> P(k0, x0) (lines 186-241)
b0:     bnz  r4, b2
        ld   r1, @k           ; store q[k]
        ldr  r2, r1
        ld   r3, @q
        add  r3, r2
        ldr  r4, r3
        sub  r3, r2
        ld   r3, @q
        ldr  r2, r1
        ld   r1, @k
        ld   r1, @k0          ; load k0
        ldr  r2, r1
        addi sp, 1            ; push k0
        ldr  r2, sp
        ldr  r2, r1           ; store k0
        ld   r1, @k0
        ld   r1, @x0          ; load x0
        ldr  r2, r1
        addi sp, 1            ; push x0
        ldr  r2, sp
        ldr  r2, r1           ; store x0
        ld   r1, @x0
        ld   r1, @P.ent       ; copy P.ent
        fetr r2, r1
        ld   r1, @P.ent
        sub  r2, pc           ; compute br
        subi r2, 2
        swbr r2               ; bra(P.ent)
        addi r2, 2            ; compute P.ent
        sub  r2, pc
        neg  r2
        ld   r1, @P.ent       ; uncopy P.ent
        fetr r2, r1
        ld   r1, @P.ent
        ld   r1, @x0          ; load x0
        ldr  r2, r1
        ldr  r2, sp           ; pop x0
        subi sp, 1
        ldr  r2, r1           ; store x0
        ld   r1, @x0
        ld   r1, @k0          ; load k0
        ldr  r2, r1
        ldr  r2, sp           ; pop k0
        subi sp, 1
        ldr  r2, r1           ; store k0
        ld   r1, @k0
        ld   r1, @k           ; load q[k] into r4
        ldr  r2, r1
        ld   r3, @q
        add  r3, r2
        ldr  r4, r3
        sub  r3, r2
        ld   r3, @q
        ldr  r2, r1
        ld   r1, @k
b1:     bra  b3

        ; |1> -> P(k0, x1) (lines 242-296)
b2:     bra  from b0
        ld   r1, @k           ; store q[k]
        ldr  r2, r1
        ld   r3, @q
        add  r3, r2
        ldr  r4, r3
        sub  r3, r2
        ld   r3, @q
        ldr  r2, r1
        ld   r1, @k
        ld   r1, @k0          ; load k0
        ldr  r2, r1
        addi sp, 1            ; push k0
        ldr  r2, sp
        ldr  r2, r1           ; store k0
        ld   r1, @k0
        ld   r1, @x1          ; load x1
        ldr  r2, r1
        addi sp, 1            ; push x1
        ldr  r2, sp
        ldr  r2, r1           ; store x1
        ld   r1, @x1
        ld   r1, @P.ent       ; copy P.ent
        fetr r2, r1
        ld   r1, @P.ent
        sub  r2, pc           ; compute br
        subi r2, 2
        swbr r2               ; bra(P.ent)
        addi r2, 2            ; compute P.ent
        sub  r2, pc
        neg  r2
        ld   r1, @P.ent       ; uncopy P.ent
        fetr r2, r1
        ld   r1, @P.ent
        ld   r1, @x1          ; load x1
        ldr  r2, r1
        ldr  r2, sp           ; pop x1
        subi sp, 1
        ldr  r2, r1           ; store x1
        ld   r1, @x1
        ld   r1, @k0          ; load k0
        ldr  r2, r1
        ldr  r2, sp           ; pop k0
        subi sp, 1
        ldr  r2, r1           ; store k0
        ld   r1, @k0
        ld   r1, @k           ; load q[k] into r4
        ldr  r2, r1
        ld   r3, @q
        add  r3, r2
        ldr  r4, r3
        sub  r3, r2
        ld   r3, @q
        ldr  r2, r1
        ld   r1, @k

        ; fiq(q[k]) (lines 297-307)
b3:     bez  r4, from b1
        fiq  r4
        ld   r1, @k           ; store q[k]
        ldr  r2, r1
        ld   r3, @q
        add  r3, r2
        ldr  r4, r3
        sub  r3, r2
        ld   r3, @q
        ldr  r2, r1
        ld   r1, @k

        ; uncompute x1, x0, k0 (lines 343-396)
        ld   r1, @w3          ; load w3
        ldr  r2, r1
        ldr  r2, sp           ; pop w3
        subi sp, 1
        ld   r3, @x1          ; load x1
        ldr  r4, r3
        swap r4, r2           ; swap(x1, w3)
        ldr  r4, r3           ; store x1
        ld   r3, @x1
        xori r5, 1            ; prepare
        ld   r3, @x0          ; load x0
        ldr  r4, r3
        arib +, r2, r4, r5
        xori r5, 1            ; clear
        ldr  r2, r1           ; store w3
        ld   r1, @w3
        ldr  r4, r3           ; store x0
        ld   r3, @x0
        ld   r1, @w2          ; load w2
        ldr  r2, r1
        ldr  r2, sp           ; pop w2
        subi sp, 1
        ld   r3, @x0          ; load x0
        ldr  r4, r3
        swap r4, r2           ; swap(x0, w2)
        ldr  r4, r3           ; store x0
        ld   r3, @x0
        xori r5, 2            ; prepare
        ld   r3, @x           ; load x
        ldr  r4, r3
        arib *, r2, r4, r5
        xori r5, 2            ; clear
        ldr  r2, r1           ; store w2
        ld   r1, @w2
        ldr  r4, r3           ; store x
        ld   r3, @x
        ld   r1, @w1          ; load w1
        ldr  r2, r1
        ldr  r2, sp           ; pop w1
        subi sp, 1
        ld   r3, @k0          ; load k0
        ldr  r4, r3
        swap r4, r2           ; swap(k0, w1)
        ldr  r4, r3           ; store k0
        ld   r3, @k0
        subi r5, 1            ; prepare
        ld   r3, @k           ; load k
        ldr  r4, r3
        arib +, r2, r4, r5
        addi r5, 1            ; clear
        ldr  r2, r1           ; store w1
        ld   r1, @w1
        ldr  r4, r3           ; store k
        ld   r3, @k

        ; else: Q[x] (lines 308-342)
        ld   r1, @k           ; load k
        ldr  r2, r1
l1:     bra  l3
l2:     bra  from l0
        ldr  r2, r1           ; store k
        ld   r1, @k
        ld   r1, @x           ; load x
        ldr  r2, r1
        ld   r3, @Q.ent       ; copy Q.ent[x]
        add  r3, r2
        fetr r4, r3
        sub  r3, r2
        ld   r3, @Q.ent
        ldr  r2, r1           ; store x
        ld   r1, @x
        sub  r4, pc           ; compute br
        subi r4, 2
        swbr r4               ; bra(Q.ent[x])
        addi r4, 2            ; compute Q.ent[x]
        sub  r4, pc
        neg  r4
        ld   r1, @x           ; load x
        ldr  r2, r1
        ld   r3, @Q.ent       ; uncopy Q.ent[x]
        add  r3, r2
        fetr r4, r3
        sub  r3, r2
        ld   r3, @Q.ent
        ldr  r2, r1           ; store x
        ld   r1, @x
        ld   r1, @k           ; load k
        ldr  r2, r1
l3:     bnz  r2, from l1
        ldr  r2, r1           ; store k
        ld   r1, @k

        ; P(k, x), exit (lines 397-425)
        ldr  ro, sp           ; pop ro
        subi sp, 1
        ld   r1, @y2          ; load y2
        ldr  r2, r1
        ldr  r2, sp           ; pop y2
        subi sp, 1
        ld   r3, @y1          ; load y1
        ldr  r4, r3
        ldr  r4, sp           ; pop y1
        subi sp, 1
        ld   r5, @k           ; load k
        ldr  r6, r5
        ld   r7, @x           ; load x
        ldr  r8, r7
        swap r6, r4           ; swap(k, y1)
        swap r8, r2           ; swap(x, y2)
        addi sp, 1            ; push y1
        ldr  r4, sp
        addi sp, 1            ; push y2
        ldr  r2, sp
        ldr  r2, r1           ; store y2
        ld   r1, @y2
        ldr  r4, r3           ; store y1
        ld   r3, @y1
        ldr  r6, r5           ; store k
        ld   r5, @k
        ldr  r8, r7           ; store x
        ld   r7, @x
P.end:  bra  P.beg

        ; Q[0] <= skip (lines 426-446)
Q0.beg: bra  from Q0.end
Q0.ent: swbr ro
        neg  ro
        addi sp, 1            ; push ro
        ldr  ro, sp
        ldr  ro, sp           ; pop ro
        subi sp, 1
Q0.end: bra  Q0.beg

        ; Q[1] <= X[t0] (lines 426-446)
Q1.beg: bra  from Q1.end
Q1.ent: swbr ro
        neg  ro
        addi sp, 1            ; push ro
        ldr  ro, sp
        ld   r1, @t0          ; load t0
        ldr  r2, r1
        uni  X, r2            ; X[t0]
        ldr  r2, r1           ; store t0
        ld   r1, @t0
        ldr  ro, sp           ; pop ro
        subi sp, 1
Q1.end: bra  Q1.beg

        ; Q[2] <= X[t1] (lines 426-446)
Q2.beg: bra  from Q2.end
Q2.ent: swbr ro
        neg  ro
        addi sp, 1            ; push ro
        ldr  ro, sp
        ld   r1, @t1          ; load t1
        ldr  r2, r1
        uni  X, r2            ; X[t1]
        ldr  r2, r1           ; store t1
        ld   r1, @t1
        ldr  ro, sp           ; pop ro
        subi sp, 1
Q2.end: bra  Q2.beg

        ; Q[3] <= X[t0]; X[t1] (lines 426-446)
Q3.beg: bra  from Q3.end
Q3.ent: swbr ro
        neg  ro
        addi sp, 1            ; push ro
        ldr  ro, sp
        ld   r1, @t0          ; load t0
        ldr  r2, r1
        uni  X, r2            ; X[t0]
        ldr  r2, r1           ; store t0
        ld   r1, @t0
        ld   r1, @t1          ; load t1
        ldr  r2, r1
        uni  X, r2            ; X[t1]
        ldr  r2, r1           ; store t1
        ld   r1, @t1
        ldr  ro, sp           ; pop ro
        subi sp, 1
Q3.end: bra  Q3.beg

        .data
        ; symbol table: the word at @v holds the address &v of the variable v
@n:         .word &n
@z:         .word &z
@k:         .word &k
@x:         .word &x
@k0:        .word &k0
@x0:        .word &x0
@x1:        .word &x1
@y1:        .word &y1
@y2:        .word &y2
@y3:        .word &y3
@w1:        .word &w1
@w2:        .word &w2
@w3:        .word &w3
@q:         .word &q
@t0:        .word &t0
@t1:        .word &t1
@Pmain.ent: .word &Pmain.ent
@P.ent:     .word &P.ent
@Q.ent:     .word &Q.ent
        ; variables
&n:         .word 2
&z:         .word 0
&k:         .word 0
&x:         .word 0
&k0:        .word 0
&x0:        .word 0
&x1:        .word 0
&y1:        .word 0
&y2:        .word 0
&y3:        .word 0
&w1:        .word 0
&w2:        .word 0
&w3:        .word 0
&q:         .word 0, 0, 1       ; q[0] is not used; q[1]; q[2]
&t0:        .word 0
&t1:        .word 0
&Pmain.ent: .word Pmain.ent
&P.ent:     .word P.ent
&Q.ent:     .word Q0.ent, Q1.ent, Q2.ent, Q3.ent
        ; call stack; sp stands on its topmost word
stack:      .space 40

        .reg sp stack
        .table make

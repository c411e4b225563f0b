; Two ports post an interrupt each while none is taken, and then both are: R2 and R3 count them. Then both post another, the first
; is reset, which takes its own back, and that of the second is taken alone.

ip = 172150
sa = 172152
second = 160374
secondsa = 160376

. = 0
        jmp @#begin
. = 154
        .word isfirst, 340
. = 300
        .word issecond, 340

. = 400
begin:  mov #2000, sp
        clr r2
        clr r3
        jsr pc, both
        clr @#177776
        jsr pc, rest
        jsr pc, both
        clr @#ip
        clr @#177776
        jsr pc, rest
        halt

; Each gets the first word of its initialisation, and interrupts with the second step.
both:   mov #340, @#177776
        clr @#ip
        clr @#second
1$:     bit #4000, @#sa
        beq 1$
2$:     bit #4000, @#secondsa
        beq 2$
        mov #100233, @#sa       ; by vector 154
        mov #100260, @#secondsa ; by 300
3$:     bit #10000, @#sa
        beq 3$
4$:     bit #10000, @#secondsa
        beq 4$
rest:   mov #2000, r4           ; turns of the ports go by
1$:     sob r4, 1$
        rts pc

isfirst: inc r2
        rti
issecond: inc r3
        rti

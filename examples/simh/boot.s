; The boot code of examples/simh/rq_pdp11.c: brings a unit online, reads its block 0 to address 0, and jumps there.

text = 2004             ; of the response, in the port's ring of responses
command = 2110          ; the text of the command
rings = 2210            ; a slot for responses, and one for commands

. = 16000
start:  .word 42125             ; the letters "UD"
        mov #start, sp
unit:   mov #0, r0              ; its unit
csr:    mov #172150, r1         ; its first register
        mov #answers, r2
        mov #4000, r3
        clr (r1)+               ; write IP. From here on r1 is SA
step:   tst (r1)
        bmi fail                ; a fatal error
        bit r3, (r1)
        beq step                ; until the port shows this step
        mov (r2)+, (r1)
        asl r3
        bpl step                ; the four steps have bits 11 to 14
        mov #text-4, r3
clear:  clr (r3)+
        cmp r3, #rings
        blo clear
        movb r0, command+4
        movb #11, command+10    ; ONLINE
        jsr pc, send
        movb #41, command+10    ; READ
        mov #1000, command+14   ; of 512 bytes of block 0, to address 0
        jsr pc, send
        clr -(r1)               ; write IP: the port forgets the rings
        clr r3                  ; r3 to r5 as other boot code of SIMH leaves them
        mov #start+20, r4
        clr r5
        clr pc
send:   mov #60., command-4     ; the length of the text
        mov #rings, r3
        mov #text, (r3)+        ; both slots are the port's
        mov #100000, (r3)+
        mov #command, (r3)+
        mov #100000, (r3)
        tst -2(r1)              ; read IP
wait:   tst (r1)
        bmi fail
        tst rings+2
        bmi wait                ; until the response is the host's
        tst text+12             ; its status
        bne fail
        rts pc
fail:   halt
answers: .word 100000, rings, 0, 1

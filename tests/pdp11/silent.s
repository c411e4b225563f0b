; Says for how many seconds it may be silent, and is. It halts when the port takes it for dead, with SA in R0, and in R1 how
; often the line clock has ticked.

seconds = 1

ip = 172150
sa = 172152
clock = 177546
response = 3004
command = 3104
rings = 3204            ; a slot each

. = 0
        br begin
. = 100
        .word ticked, 340

. = 200
begin:  mov #2000, sp
        mov #answers, r2
        mov #4000, r3
        clr @#ip
step:   bit r3, @#sa
        beq step
        mov (r2)+, @#sa
        asl r3
        bpl step
        mov #60., @#response-4
        mov #60., @#command-4
        mov #4, @#command+10    ; SET CONTROLLER CHARACTERISTICS
        mov #seconds, @#command+20
        mov #response, @#rings
        mov #100000, @#rings+2
        mov #command, @#rings+4
        mov #100000, @#rings+6
        tst @#ip
1$:     tst @#rings+2
        bmi 1$                  ; until its end has come
        clr r1
        clr @#177776
        mov #100, @#clock
2$:     mov @#sa, r0
        bpl 2$
        halt

ticked: inc r1
        rti

answers: .word 100000, rings, 0, 1

; Copies the first blocks of unit 0 to unit 1, by READs and WRITEs of `blocks` blocks of which four are outstanding, and
; compares. Block 0 is booted, and reads the blocks behind it. It halts with 12345 in R0 if all was as it must be, and else with the
; number of what wasn't (see `jsr r5, failed`).
;
; With `polls` it asks for the status of its oldest command again and again, and sends an ABORT of a queued READ and one of
; a number that nobody has.

rounds = 1              ; how often it copies
blocks = 32.
bytes = 40000           ; of these blocks
chunks = 4              ; how many times so many blocks
apart = 40000           ; the data of the four places are that far apart; with 0, and 1 for `wide`, they are 200000 apart
wide = 0
polls = 0
compares = 1
maps = 0                ; whether the Unibus map moves all above 40000 up by 400000
more = 0                ; bits that are set in the upper words of addresses
between = 24.          ; how many looks at the ring go by between two polls
first = 0               ; the number of the first unit of the two
above = 0               ; the upper word of the blocks' numbers

ip = 172150             ; of the controller, and SA behind it
sa = ip+2
rsprings = 10010        ; eight slots each
cmdrings = 10050
responses = 12004       ; texts, 200 apart
commands = 14004

. = 0
        jmp @#begin
        .word trapped, 340, trapped, 340
. = 154
        .word interrupt, 340

. = 200
begin:  mov #10000, sp
        clr @#177776            ; interrupts are taken
        mov #answers, r2
        mov #4000, r3
        clr @#ip
step:   tst @#sa
        bpl 1$
        jsr r5, failed
        .word 1                 ; a fatal error amid the initialisation
1$:     bit r3, @#sa
        beq step
        mov (r2)+, @#sa
        asl r3
        bpl step
        mov #responses, r1
        mov #rsprings, r2
2$:     mov r1, (r2)+           ; all slots for responses are the port's, and it says when it fills one
        mov #140000, (r2)+
        add #200, r1
        cmp r2, #cmdrings
        blo 2$
        clr r0                  ; both units come online
        jsr pc, online
        mov #1, r0
        jsr pc, online
        mov #41, r0             ; READ the rest of the program
        jsr pc, command
        mov #5000, 14(r4)
        mov #1000, 20(r4)
        mov #1, 34(r4)
        jsr pc, post
        jsr pc, await
        jmp @#copy

answers: .word 115633, rsprings, 0, 1  ; slots, interrupts by vector 154; where; and go

online: mov r0, -(sp)
        mov #11, r0
        jsr pc, command
        add (sp)+, 4(r4)
        jsr pc, post
; Waits for a response, which must be of success.
await:  jsr pc, response
        beq await
        tst 12(r4)
        beq give
        jsr r5, failed
        .word 2                 ; a status that isn't success
; The response's slot is the port's again.
give:   mov #140000, @rspslot
        add #4, rspslot
        cmp rspslot, #cmdrings
        blo 1$
        mov #rsprings+2, rspslot
1$:     rts pc

; Is there a response? Else Z is set. Its text is at R4.
response: mov rspslot, r4
        tst (r4)
        bmi 1$
        mov -2(r4), r4
        rts pc                  ; an address isn't 0
1$:     tst @#sa
        bpl 2$
        jsr r5, failed
        .word 3                 ; a fatal error
2$:     clr r4
        rts pc

; The next command, of this opcode, has its text at R4.
command: mov cmdtext, r4
        mov r4, r2
        mov #60., -4(r4)
        clr -2(r4)
        mov #30., r3
1$:     clr (r2)+
        sob r3, 1$
        mov r0, 10(r4)
        mov #first, 4(r4)
        inc counter
        mov counter, 2(r4)      ; the upper word of its number
        rts pc

; It is sent.
post:   mov cmdslot, r2
1$:     tst 2(r2)
        bmi 1$                  ; until the slot is ours
        mov r4, (r2)+
        mov #100000, (r2)+
        cmp r2, #cmdrings+40
        blo 2$
        mov #cmdrings, r2
2$:     mov r2, cmdslot
        add #200, cmdtext
        bic #2000, cmdtext      ; 14004 to 15604
        tst @#ip
        rts pc

interrupt: inc interrupts
        rti

trapped: jsr r5, failed
        .word 4                 ; a trap
failed: mov (r5), r0
        halt
        br .-2

rspslot: .word rsprings+2
cmdslot: .word cmdrings
cmdtext: .word commands
counter: .word 0
interrupts: .word 0

; What follows is in the blocks behind.
. = 1000
copy:   mov #maps, r0
        beq 3$
        mov #170200, r2         ; the map: a low and a high word for each 20000 bytes
        clr r0
        clr r1
1$:     mov r0, (r2)+
        mov r1, (r2)
        cmp r2, #170206
        blos 2$
        bis #2, (r2)
2$:     tst (r2)+
        add #20000, r0
        bcc 4$
        inc r1
4$:     cmp r2, #170374
        blo 1$
        mov #40, @#172516       ; it is on
3$:     mov #rounds, round
again:  clr next
        clr ended
        mov #4, r0
        clr r1
1$:     jsr pc, read            ; each of the four places begins with a READ
        add #2, r1
        sob r0, 1$
look:   mov #polls, r0
        beq 1$
        dec looks
        bne 1$
        mov #between, looks
        jsr pc, poll
1$:     jsr pc, response
        beq look
        jsr pc, heard
        jsr pc, give
        cmp ended, #chunks
        bne look
        dec round
        bne again
        tst interrupts
        bne 2$
        jsr r5, failed
        .word 5                 ; no interrupt came
2$:     mov #polls, r0
        beq 3$
        jsr pc, wereheard
3$:     mov #compares, r0
        beq 4$
        jsr pc, compare
4$:     clr @#ip
        mov #12345, r0
        halt
        br .-2

; Place R1 (0, 2, 4 or 6) READs the next chunk, if there is one.
read:   cmp next, #chunks
        bhis 1$
        mov next, chunk(r1)
        inc next
        mov r0, -(sp)
        mov #41, r0
        jsr pc, transfer
        mov (sp)+, r0
1$:     rts pc

; Place R1 sends its transfer of this opcode, of unit 1 if it is a WRITE.
transfer: jsr pc, command
        mov r1, (r4)
        inc (r4)
        mov counter, number(r1)
        cmp #42, r0
        bne 1$
        inc 4(r4)
1$:     mov #bytes, 14(r4)
        mov low(r1), 20(r4)
        mov high(r1), 22(r4)
        mov chunk(r1), r3
        mul #blocks, r3
        mov r3, 34(r4)
        mov #above, 36(r4)
        jmp @#post

; The response at R4 is of a transfer, or of what `poll` sends.
heard:  mov (r4), r1
        cmp r1, #100
        bhis other
        dec r1
        tst 12(r4)
        beq 1$
        jsr r5, failed
        .word 6                 ; the status of a transfer
1$:     cmp number(r1), 2(r4)
        beq 2$
        jsr r5, failed
        .word 7                 ; another command's number
2$:     clr number(r1)
        cmpb 10(r4), #241
        bne 3$
        mov #42, r0             ; what was read is written
        jmp @#transfer
3$:     cmpb 10(r4), #242
        beq 4$
        jsr r5, failed
        .word 10                ; the end of another opcode
4$:     inc ended
        jmp @#read

other:  cmp r1, #100
        beq polled
        cmp r1, #101
        beq 1$
        tst 12(r4)              ; of an ABORT
        bne 2$
        cmpb 10(r4), #201
        bne 2$
        inc answered
        rts pc
1$:     cmpb 10(r4), #241       ; of the READ that was queued: aborted
        bne 2$
        mov 12(r4), r1
        bic #177740, r1
        cmp r1, #2
        bne 2$
        inc answered
        rts pc
2$:     jsr r5, failed
        .word 11                ; the end of an ABORT, or of what it aborted

; The figure of the oldest command is there. If the command isn't outstanding any more it doesn't matter.
polled: clr polling
        mov pollee, r1
        cmp number(r1), pollno
        bne 2$
        tst 12(r4)
        bne 3$
        cmp 16(r4), number(r1)
        bne 3$
        tst 22(r4)
        bne 3$
        tst 20(r4)
        bne 1$
        jsr r5, failed
        .word 12                ; the figure is 0
1$:     inc figures
        cmp lastno, pollno
        bne 4$
        inc falls
        cmp 20(r4), last
        blo 4$
        jsr r5, failed
        .word 13                ; the figure hasn't fallen
3$:     jsr r5, failed
        .word 14                ; the end of a poll
4$:     mov pollno, lastno
        mov 20(r4), last
2$:     rts pc

; Polls the oldest command, if the last poll was answered. The first time it also sends the ABORTs.
poll:   tst polling
        bne 4$
        clr r0                  ; the place of the least number that isn't 0
        mov #177777, r3
        clr r2
1$:     tst number(r2)
        beq 2$
        cmp number(r2), r3
        bhis 2$
        mov number(r2), r3
        mov r2, r0
2$:     add #2, r2
        cmp r2, #10
        bne 1$
        cmp r3, #177777
        beq 4$
        mov r0, pollee
        mov r3, pollno
        inc polling
        mov #2, r0
        jsr pc, command
        mov #100, (r4)
        mov pollee, r1
        mov r1, 14(r4)
        inc 14(r4)
        mov pollno, 16(r4)
        jsr pc, post
        tst sent
        bne 4$
        inc sent
        jsr pc, aborts
4$:     rts pc

; A READ that waits behind the others, an ABORT of it, and an ABORT of a number that nobody has.
aborts: mov #41, r0
        jsr pc, command
        mov #101, (r4)
        mov counter, r5
        mov #40000, 14(r4)
        mov #40000, 20(r4)
        mov #1, 22(r4)
        mov #2000, 34(r4)
        jsr pc, post
        jsr pc, abort
        mov #177777, r5
abort:  mov #1, r0
        jsr pc, command
        mov #102, (r4)
        mov #101, 14(r4)
        mov r5, 16(r4)
        jmp @#post

; Polls told figures, and figures fell; and the three ends of `aborts` have come, or come soon.
wereheard: clr r5
1$:     cmp answered, #3
        beq 2$
        jsr pc, response
        beq 3$
        jsr pc, heard
        jsr pc, give
3$:     sob r5, 1$
        jsr r5, failed
        .word 15                ; what was aborted, or an ABORT, isn't answered
2$:     tst polling
        beq 5$
        jsr pc, response
        beq 2$
        jsr pc, heard
        jsr pc, give
5$:     tst figures
        beq 4$
        tst falls
        bne 6$
4$:     jsr r5, failed
        .word 16                ; no figure was told, or none twice
6$:     rts pc

; READs each chunk of unit 0, and compares unit 1 with it.
compare: clr next
1$:     clr r1
        jsr pc, read
        jsr pc, await
        mov #42, r0
        mov #1, r1
        jsr pc, command
        inc 4(r4)
        movb #40, 10(r4)        ; COMPARE HOST DATA
        mov #bytes, 14(r4)
        clr r1
        mov low(r1), 20(r4)
        mov high(r1), 22(r4)
        mov chunk(r1), r3
        mul #blocks, r3
        mov r3, 34(r4)
        mov #above, 36(r4)
        jsr pc, post
        jsr pc, await
        cmp next, #chunks
        bne 1$
        rts pc

round:  .word 0
next:   .word 0                 ; the next chunk to be read
ended:  .word 0                 ; how many are written
looks:  .word between
polling: .word 0                ; whether a poll isn't answered yet, of which command, and what was told of which last
pollee: .word 0
pollno: .word 0
last:   .word 0
lastno: .word 0
figures: .word 0
falls:  .word 0
sent:   .word 0
answered: .word 0
number: .word 0, 0, 0, 0        ; of each place: the upper word of the command that is outstanding, and its chunk
chunk:  .word 0, 0, 0, 0
low:    .word apart, apart+apart, apart+apart+apart, 0  ; where its data are
high:   .word more+wide, more+wide+wide, more+wide+wide+wide, more+wide+wide+wide+1
